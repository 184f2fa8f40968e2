_begin _comment Own variables keep their values from one activation to the next, and there is one of them for all
  activations of a recursion. Each declaration has its own;
  _integer i;
  _procedure ticket;
  _begin
    _own _integer number;
    number := number + 1;
    outtext({ ticket }); outinteger(number)
  _end ticket;
  _integer _procedure throws;
  _begin _comment numbers from 1 to 6, from a sequence whose state nobody else can see;
    _own _integer state;
    state := state * 1366 + 150889;
    state := state - state _div 714025 * 714025;
    throws := state _div 100 - state _div 600 * 6 + 1
  _end throws;
  _procedure dive(n); _value n; _integer n;
  _begin
    _own _integer deepest, depth;
    depth := depth + 1;
    _if depth > deepest _then deepest := depth;
    _if n > 0 _then dive(n - 1);
    depth := depth - 1;
    _if depth = 0 _then
    _begin
      outtext({deepest }); outinteger(deepest); outcr
    _end
  _end dive;
  _for i := 1 _step 1 _until 3 _do ticket;
  outcr;
  _for i := 1 _step 1 _until 20 _do
  _begin
    outinteger(throws); outchar(_if i = 20 _then 10 _else 32)
  _end;
  dive(2); dive(5); dive(1)
_end
