function plan = nr_plan(a, rate)
% PLAN = nr_plan(A, RATE) is how a transport block of A bits is cut at the target code rate RATE, as 490/1024 (TS 38.212,
% 5.2.2, 5.3.2). It is a structure: the base graph `graph`, `b` bits with the CRC, `l` CRC bits of each code block, and `c`
% code blocks. Each has `kdash` bits without fillers, `k` with them, and `n` coded bits; `kb`, `z` (Zc) and its `set` are theirs.
plan = nr_call('plan', nr_rate(rate), a);
end
