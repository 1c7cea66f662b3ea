function [block, outcomes, left] = nr_receive(table, a, rate, txs, heard, lbrm)
% BLOCK = nr_receive(TABLE, A, RATE, TXS, HEARD) is the transport block of A bits, as a column, that explains all that was
% received. It is empty if none is delivered. TXS has the structure of each transmission (nr_send), and HEARD a cell with a column
% for each. For one transmission its structure and its column do. A place has 0, 1, or NaN where nothing was received.
%
% [BLOCK, OUTCOMES, LEFT] = nr_receive(..) says after each transmission whether the block is 'open', 'delivered' or a
% 'contradiction', which no block explains. LEFT says how many of the K' bits of each code block are not fixed after the last one.
%
% nr_receive(TABLE, A, RATE, TXS, HEARD, LBRM) limits the circular buffer by TBS_LBRM = LBRM bits (5.4.2.1).
if nargin < 6
  lbrm = [];
end
if ~iscell(heard)
  heard = {heard};
end
if numel(heard) ~= numel(txs)
  error('nr:Length', 'Length: the list of what was heard has the length %d, and not %d', numel(heard), numel(txs));
end
[numbers, blocks] = nr_tx(txs);
[block, found, left] = nr_call('receive', table, nr_link(rate, lbrm), a, numbers, blocks, heard);
names = {'open'; 'delivered'; 'contradiction'};
outcomes = reshape(names(found + 1), [], 1);
end
