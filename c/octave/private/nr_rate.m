function rate2048 = nr_rate(rate)
% A whole number of 2048ths that is as good as the code rate, which only chooses the base graph by being at most 0.25 or 0.67 (TS
% 38.212, 6.2.2, 7.2.2): the one below, unless that answers one of the two differently, or is 0.
nr_wanted(isnumeric(rate) && isreal(rate) && isscalar(rate), 'the target code rate is a number, as 490/1024');
if isa(rate, 'single')
  rate = str2double(sprintf('%.7g', rate));  % 0.67 is 0.67
end
rate = double(rate);
if ~(rate > 0 && rate <= 1)
  error('nr:RateRange', 'RateRange: the target code rate is above 0 and up to 1, as 490/1024');
end
rate2048 = floor(rate * 2048);
limits = [0.25 0.67];
if rate2048 == 0 || any((rate2048 / 2048 <= limits) ~= (rate <= limits))
  rate2048 = rate2048 + 1;
end
end
