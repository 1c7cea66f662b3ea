function [block, passed, blockpassed] = nr_join(blocks, a, rate)
% BLOCK = nr_join(BLOCKS, A, RATE) joins code blocks into their transport block of A bits (TS 38.212, 5.1, 5.2.2), as a column of the
% class of BLOCKS: the inverse of nr_cut. Each column of BLOCKS has the K' decided bits of a code block, as nrCodeBlockDesegmentLDPC
% takes them without fillers. RATE is the target code rate.
%
% [BLOCK, PASSED, BLOCKPASSED] = nr_join(..) says of each code block whether its CRC24B passes, and whether the CRC of the transport
% block does. A single code block has no CRC24B: PASSED is then BLOCKPASSED.
[block, passed, blockpassed] = nr_call('join', nr_rate(rate), a, blocks);
end
