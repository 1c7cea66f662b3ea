function [blocks, outcomes, left] = nr_receive_many(table, a, rate, txs, heard, lbrm)
% BLOCKS = nr_receive_many(TABLE, A, RATE, TXS, HEARD) are the transport blocks of A bits that explain what was received. The table is
% read once. HEARD has a column for each block: the places of the first of TXS, then those of the second, and so on.
% A place has 0, 1, or NaN where nothing was received. BLOCKS has a column for each, zeros if the block is not delivered.
%
% [BLOCKS, OUTCOMES, LEFT] = nr_receive_many(..) says in a column for each block what nr_receive says of it.
%
% nr_receive_many(TABLE, A, RATE, TXS, HEARD, LBRM) limits the circular buffer by TBS_LBRM = LBRM bits (5.4.2.1).
if nargin < 6
  lbrm = [];
end
[numbers, scheduled] = nr_tx(txs);
if size(heard, 1) ~= sum(numbers(2, :))
  error('nr:Length', 'Length: a column of HEARD has the length %d, and not %d', size(heard, 1), sum(numbers(2, :)));
end
[blocks, found, left] = nr_call('receive_many', table, nr_link(rate, lbrm), a, numbers, scheduled, heard);
names = {'open'; 'delivered'; 'contradiction'};
outcomes = reshape(names(found + 1), size(found));
end
