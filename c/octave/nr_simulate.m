function [after, left, erased] = nr_simulate(table, a, rate, txs, p, seeds, lbrm)
% AFTER = nr_simulate(TABLE, A, RATE, TXS, P, SEEDS) makes rounds. In each a transport block of A bits is sent by the
% transmissions TXS (nr_send) in turn until it is delivered. The link erases each place with probability P, or with one of its own
% for each of TXS. SEEDS has a column for each round and a row for each transmission, of which its places are drawn. They are
% drawn by PCG32, as pcg:SEED:THRESHOLD of a schedule of linksim. The seeds are uint64, or whole doubles as
% floor(rand(numel(TXS), ROUNDS) * 2^53). AFTER says for each round after how many transmissions the block is delivered, 0 if
% after none. It is so for every block: over erasures the places alone decide.
%
% [AFTER, LEFT, ERASED] = nr_simulate(..) says more, in arrays of code blocks by transmissions by rounds. LEFT is how many of the
% K' bits of a code block were not fixed after a transmission. ERASED is how many of its places that transmission alone erased.
% Both are 0 after the delivery. cumsum(ERASED, 2) counts up to each transmission.
%
% nr_simulate(TABLE, A, RATE, TXS, P, SEEDS, LBRM) limits the circular buffer by TBS_LBRM = LBRM bits (TS 38.212, 5.4.2.1).
if nargin < 7
  lbrm = [];
end
nr_wanted(isnumeric(p) && isreal(p) && any(numel(p) == [1 numel(txs)]) && all(p(:) >= 0 & p(:) <= 1), ...
  'P is a probability from 0 to 1, or one for each transmission');
if size(seeds, 1) ~= numel(txs)
  error('nr:Length', 'Length: a column of SEEDS has the length %d, and not %d', size(seeds, 1), numel(txs));
end
[numbers, blocks] = nr_tx(txs);
thresholds = min(2^32 - 1, round(double(p(:)) * 2^32)) .* ones(numel(txs), 1);
[after, left, erased] = nr_call('simulate', table, nr_link(rate, lbrm), a, numbers, blocks, thresholds, seeds);
end
