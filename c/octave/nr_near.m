function [below, above] = nr_near(a, rate)
% [BELOW, ABOVE] = nr_near(A, RATE) are the sizes of transport blocks next to A bits that can be segmented at the target code rate
% RATE, since their code blocks have one length (TS 38.212, 5.2.2): the greatest up to A, and the least from A on. One is empty if
% there is no such size.
sizes = nr_call('near', nr_rate(rate), a);
below = sizes(1, sizes(1) > 0);
above = sizes(2, sizes(2) > 0);
end
