function link = nr_link(rate, lbrm)
% What both ends of a link have to agree on: the code rate in 2048ths, and TBS_LBRM, or 0 for no limit.
if isempty(lbrm)
  lbrm = 0;
end
nr_wanted(isnumeric(lbrm) && isreal(lbrm) && isscalar(lbrm), 'LBRM is a number of bits, or [] for no limit');
link = [nr_rate(rate) double(lbrm)];
end
