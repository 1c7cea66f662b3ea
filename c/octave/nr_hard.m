function heard = nr_hard(llrs, threshold)
% HEARD = nr_hard(LLRS, THRESHOLD) are hard decisions for nr_receive on log-likelihood ratios, which are positive for a 0 as
% nrDLSCHDecoder has them. A value of at most THRESHOLD on either side of 0 is erased (NaN).
%
% nr_receive corrects no wrong decision: it may then deliver another block. So THRESHOLD has to be so high that no decision is
% wrong.
nr_wanted(nargin == 2, 'nr_hard takes LLRS and THRESHOLD, which has no default since 0 makes wrong decisions over noise');
nr_wanted(isnumeric(threshold) && isreal(threshold) && isscalar(threshold) && threshold >= 0, 'the threshold is a number from 0');
nr_wanted(~islogical(llrs), 'LLRS are decisions and not log-likelihood ratios: nr_receive takes decisions as they are');
nr_wanted(isnumeric(llrs) && isreal(llrs), 'log-likelihood ratios are real numbers');
nr_wanted(~any(llrs(:) == 1) || ~all(llrs(:) == 0 | llrs(:) == 1), ...
  'LLRS are decisions and not log-likelihood ratios: nr_receive takes decisions as they are');
nr_wanted(~any(strcmp(class(llrs), {'uint8', 'uint16', 'uint32', 'uint64'})), ...
  'LLRS are unsigned, so that none can stand for a 1: subtract their offset in a signed type first');
heard = double(llrs < 0);
heard(~(abs(double(llrs)) > threshold)) = NaN;
end
