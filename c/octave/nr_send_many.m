function bits = nr_send_many(table, blocks, rate, txs, lbrm)
% BITS = nr_send_many(TABLE, BLOCKS, RATE, TXS) are the bits that the transmissions TXS send of each of many transport blocks, by one
% reading of the table. BLOCKS has a column of bits for each block, and BITS a column of its class. A column has the bits of the
% first transmission, then those of the second, and so on, each as nr_send gives them. nr_receive_many takes them so.
%
% nr_send_many(TABLE, BLOCKS, RATE, TXS, LBRM) limits the circular buffer by TBS_LBRM = LBRM bits (5.4.2.1).
if nargin < 5
  lbrm = [];
end
[numbers, scheduled] = nr_tx(txs);
bits = nr_call('send_many', table, nr_link(rate, lbrm), blocks, numbers, scheduled);
end
