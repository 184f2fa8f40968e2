"""Tests of the model itself. The script tests/model/check runs them."""
