function words = nr_encode(table, blocks, graph)
% WORDS = nr_encode(TABLE, BLOCKS, GRAPH) codes code blocks (TS 38.212, 5.3.2) by the base graph GRAPH, 1 or 2. Each column of BLOCKS
% has the K bits of a code block, 22 or 10 times the lifting size, with -1 for a filler. Each column of WORDS has the N bits d that
% it is coded into, with -1 for a filler, as nrLDPCEncode has them.
words = nr_call('encode', table, graph, blocks);
end
