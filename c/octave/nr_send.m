function bits = nr_send(table, block, rate, tx, lbrm)
% BITS = nr_send(TABLE, BLOCK, RATE, TX) are the bits that a transmission sends of a transport block (TS 38.212, 6.2, 7.2), in a
% column. BLOCK is a column of bits, logical or double, and BITS is of its class. RATE is the target code rate, as 490/1024. TX is
% a structure: `g` bits are sent, `qm` in each modulation symbol. It may have the redundancy version `rv` (0) and the layers `nl`
% (1). It may also have the numbers of the code blocks that are sent, `blocks`, from 0 (all, also if it is empty).
%
% nr_send(TABLE, BLOCK, RATE, TX, LBRM) limits the circular buffer by TBS_LBRM = LBRM bits (5.4.2.1).
if nargin < 5
  lbrm = [];
end
[numbers, blocks] = nr_tx(tx);
bits = nr_call('send', table, nr_link(rate, lbrm), block, numbers, blocks);
end
