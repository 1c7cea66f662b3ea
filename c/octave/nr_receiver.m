function receiver = nr_receiver(table, a, rate, lbrm)
% RECEIVER = nr_receiver(TABLE, A, RATE) is a receiver of a transport block of A bits at the target code rate RATE, which has
% received nothing. It is a structure, which may be copied and saved; nr_take takes up one transmission.
%
% nr_receiver(TABLE, A, RATE, LBRM) limits the circular buffer by TBS_LBRM = LBRM bits (TS 38.212, 5.4.2.1).
if nargin < 4
  lbrm = [];
end
link = nr_link(rate, lbrm);
receiver = struct('a', a, 'link', link, 'room', nr_call('start', table, link, a));
end
