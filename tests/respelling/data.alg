_begin outinteger(ininteger) _end # 12 begin 3.5
