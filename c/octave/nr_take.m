function [receiver, block, outcome, left] = nr_take(table, receiver, tx, heard)
% [RECEIVER, BLOCK] = nr_take(TABLE, RECEIVER, TX, HEARD) takes up one transmission. TX is its structure (nr_send), and HEARD a
% column of 0, 1, or NaN where nothing was received. The RECEIVER that comes back has received it too. BLOCK is the transport block that
% explains all that was received so far, or empty.
%
% [RECEIVER, BLOCK, OUTCOME, LEFT] = nr_take(..) says of all that was received so far what nr_receive says. OUTCOME is 'open',
% 'delivered' or 'contradiction', and LEFT is how many of the K' bits of each code block are not fixed.
nr_wanted(isstruct(receiver) && all(isfield(receiver, {'link', 'a', 'room'})), 'RECEIVER is one of nr_receiver');
[numbers, blocks] = nr_tx(tx);
[room, block, found, left] = nr_call('take', table, receiver.link, receiver.a, receiver.room, numbers, blocks, heard);
receiver.room = room;
names = {'open', 'delivered', 'contradiction'};
outcome = names{found + 1};
end
