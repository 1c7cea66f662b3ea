function lengths = nr_lengths(a, rate, tx)
% LENGTHS = nr_lengths(A, RATE, TX) is a column: how many bits a transmission sends of each code block (TS 38.212, 5.4.2.1). The
% transport block has A bits, and RATE is the target code rate. TX is a structure as nr_send has it.
[numbers, blocks] = nr_tx(tx);
lengths = nr_call('lengths', nr_rate(rate), a, numbers, blocks);
end
