function [ncb, k0] = nr_buffer(a, rate, rv, lbrm)
% [NCB, K0] = nr_buffer(A, RATE, RV) is the circular buffer of a transport block of A bits at the target code rate RATE (TS
% 38.212, 5.4.2.1). NCB is how many bits it keeps of each code block, and K0 where the redundancy version RV begins in it, from 0.
%
% nr_buffer(A, RATE, RV, LBRM) limits the buffer by TBS_LBRM = LBRM bits.
if nargin < 4
  lbrm = [];
end
[ncb, k0] = nr_call('buffer', nr_link(rate, lbrm), a, rv);
end
