function places = nr_places(a, rate, tx, lbrm)
% PLACES = nr_places(A, RATE, TX) says which bit each of the G places of a transmission carries (TS 38.212, 5.4.2, 5.5), as a column.
% The transport block has A bits, and RATE is the target code rate. TX is a structure as nr_send has it. Item m is the linear index,
% from 1, into an array of N rows and C columns of soft values, such as the words that nr_codeword returns. So it is rate recovery,
% as nrRateRecoverLDPC does it:
%
%   soft = soft + reshape(accumarray(nr_places(a, rate, tx), llrs, [numel(soft) 1]), size(soft));
%
% nr_places(A, RATE, TX, LBRM) limits the circular buffer by TBS_LBRM = LBRM bits (5.4.2.1).
if nargin < 4
  lbrm = [];
end
[numbers, blocks] = nr_tx(tx);
places = nr_call('places', nr_link(rate, lbrm), a, numbers, blocks) + 1;
end
