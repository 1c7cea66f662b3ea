function bits = nr_match(words, e, graph, rv, qm, ncb)
% BITS = nr_match(WORDS, E, GRAPH, RV, QM) rate matches code blocks of the base graph GRAPH, 1 or 2, by their own numbers (TS 38.212,
% 5.4.2). Each column of WORDS has the N bits d of a code block, as nr_encode has them, with -1 for a filler. Each column of BITS has
% the E bits that the redundancy version RV selects, interleaved by QM bits a symbol. QM = 1 leaves them in their order.
%
% nr_match(WORDS, E, GRAPH, RV, QM, NCB) keeps NCB of the N bits in the circular buffer.
if nargin < 6
  ncb = size(words, 1);
end
bits = nr_call('match', words, e, graph, rv, qm, ncb);
end
