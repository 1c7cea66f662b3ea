function blocks = nr_cut(block, rate)
% BLOCKS = nr_cut(BLOCK, RATE) cuts a transport block at the target code rate RATE, as 490/1024 (TS 38.212, 5.2.2). BLOCK is a column of
% bits, logical or double. Each column of BLOCKS has the K' bits of a code block with its CRC, without fillers, as nr_codeword takes
% them.
blocks = nr_call('cut', nr_rate(rate), block);
end
