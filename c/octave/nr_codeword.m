function words = nr_codeword(table, blocks, a, rate)
% WORDS = nr_codeword(TABLE, BLOCKS, A, RATE) codes code blocks (TS 38.212, 5.3.2) of a transport block of A bits at the target
% code rate RATE. Each column of BLOCKS has the K' bits of a code block with its CRC, without fillers. Each column of WORDS has
% the N bits d that it is coded into, with -1 for a filler, as nrLDPCEncode has them.
words = nr_call('codeword', table, nr_rate(rate), a, blocks);
end
