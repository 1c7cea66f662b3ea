function octave_calls(table_file)
% What the calls answer over the practice table, whose bits follow by hand. tests/packages runs it, with the files of c/octave in
% the path and nr_mex built.
table = nr_table(table_file);
same(size(table), [11 105]);
answers(table);
numbers();
receptions(table);
many(table);
taken(table);
soft(table);
simulated(table);
refusals(table);
both = nr_practice;
same(size(both), [11 421]);
same(both(:, 317:end), table);
odd_arguments(table);
by_hand();
disp('octave_calls: ok');
end

function answers(table)
plan = nr_plan(8, 1);
same([plan.graph plan.c plan.kdash plan.z plan.k plan.n], [2 1 24 4 40 200]);
same(nr_plan(uint32(8), 1), plan);
% columns 0 to 51 of the block 01, four bits each; columns 6 to 9 are fillers, and the first two are never sent
word = bits('0110210000033022000008108800000240220000081088000002');
coded = word(9:end);
coded(17:32) = -1;
same(nr_codeword(table, word(1:24), 8, 1), coded);
same(nr_codeword(table, logical([word(1:24) zeros(24, 1)]), 8, 1)(:, 1), coded);
filled = word(1:40);
filled(25:40) = -1;
same(nr_encode(table, [filled filled], 2), [coded coded]);
% 24 bits of four to a symbol; and from column 43 on of a buffer of 50 columns, but for the fillers
same(nr_match([coded coded], 24, 2, 0, 4), [bits('000a51') bits('000a51')]);
same(nr_match(coded, 184, 2, 3, 1), [coded(173:200); coded([1:16 33:172])]);
same(nr_match(coded, 30, 2, 0, 1, 40), coded([1:16 33:40 1:6]));
same(size(nr_match(coded, 2^22, 2, 0, 1)), [2^22 1]);
block = bits('01');
same(nr_cut(block, 1), word(1:24));
same(size(nr_cut(false(3840, 1), 1/4)), [1956 2]);
sent = nr_send(table, block, 1, struct('g', 184, 'qm', 1));
same(sent, coded(coded >= 0));
same(nr_send(table, logical(block), 1, struct('g', 184, 'qm', 1, 'rv', 0, 'nl', 1)), logical(sent));
same(nr_send(table, block', 1, struct('g', 24, 'qm', 1, 'blocks', 0)), sent(1:24));
end

function numbers()
same(nr_lengths(8, 1, struct('g', 184, 'qm', 1)), 184);
% of 201 symbols the first code block has the smaller half
same(nr_lengths(3840, 1/4, struct('g', 402, 'qm', 2)), [200; 202]);
same(nr_lengths(3840, 1/4, struct('g', 402, 'qm', 2, 'blocks', 1)), [0; 402]);
[ncb, k0] = nr_buffer(72, 1, 2);
same([ncb k0], [750 375]);
same(nr_buffer(72, 1, 0, 300), 450);
% the remainder of x^16 or x^24 has the polynomial's own lower digits
same(nr_crc(bits('01'), '16'), bits('1021'));
same(nr_crc(logical(bits('01')), '24a'), logical(bits('864cfb')));
same(nr_crc(bits('0001'), '24B'), bits('800063'));
same(nr_hard([3 -2 0.5 -0.5 0 NaN], 0), [0 1 0 1 NaN NaN]);
same(nr_hard([3; -2; 0.5; -0.5; -Inf], 1), [0; 1; NaN; NaN; 1]);
end

function receptions(table)
block = bits('01');
tx = struct('g', 184, 'qm', 1, 'rv', {0, 0});
sent = nr_send(table, block, 1, tx(1));
[found, outcomes, left] = nr_receive(table, 8, 1, tx, {NaN(184, 1), sent});
same(found, block);
same(outcomes, {'open'; 'delivered'});
same(left, 0);
same(nr_receive(table, 8, 1, tx(1), logical(sent)), logical(block));
same(nr_receive(table, 8, 1, tx(1), nr_hard(4 - 8 * sent, 0)), block);
sent(8) = 1 - sent(8);
[found, outcomes] = nr_receive(table, 8, 1, tx(1), sent);
same({found, outcomes}, {[], {'contradiction'}});
[found, outcomes, left] = nr_receive(table, 8, 1, tx(1), NaN(184, 1));
same({found, outcomes, left}, {[], {'open'}, 24});
end

function many(table)
% Each column has what the calls for one block say.
blocks = [bits('01') bits('5a') bits('ff')];
txs = struct('g', {184, 24}, 'qm', {1, 2}, 'rv', {0, 2});
sent = nr_send_many(table, blocks, 1, txs);
heard = sent;
heard(1:184, 1) = NaN;
heard(1, 3) = 1 - heard(1, 3);
[found, outcomes, left] = nr_receive_many(table, 8, 1, txs, heard);
for k = 1:3
  same(sent(:, k), [nr_send(table, blocks(:, k), 1, txs(1)); nr_send(table, blocks(:, k), 1, txs(2))]);
  [block, each, rest] = nr_receive(table, 8, 1, txs, {heard(1:184, k), heard(185:208, k)});
  same({outcomes(:, k), left(:, k)}, {each, rest});
  same(found(:, k), [block; zeros(8 - numel(block), 1)]);
end
same(outcomes(2, :), {'open', 'delivered', 'contradiction'});
same(found(:, 2), blocks(:, 2));
same(nr_send_many(table, logical(blocks), 1, txs), logical(sent));
same(nr_receive_many(table, 8, 1, txs, logical(sent)), logical(blocks));
refused('nr:Size', @() nr_send_many(table, blocks(1:7, :), 1, txs));
refused('nr:Rv', @() nr_send_many(table, blocks, 1, struct('g', 4, 'qm', 1, 'rv', 4)));
refused('nr:Length', @() nr_receive_many(table, 8, 1, txs, heard(2:end, :)));
end

function taken(table)
% Half of the places by each of two transmissions, and a copy that goes on by itself.
block = bits('01');
tx = struct('g', 184, 'qm', 1);
sent = nr_send(table, block, 1, tx);
halves = {sent, sent};
halves{1}(9:184) = NaN;
halves{2}(1:8) = 1 - halves{2}(1:8);
[first, found, outcome, left] = nr_take(table, nr_receiver(table, 8, 1), tx, halves{1});
same({found, outcome, left}, {[], 'open', 16});
[~, found, outcome, left] = nr_take(table, first, tx, logical(sent));
same({found, outcome, left}, {logical(block), 'delivered', 0});
[~, found, outcome] = nr_take(table, first, tx, halves{2});
same({found, outcome}, {[], 'contradiction'});
other = first;
other.room(1) = 99;
refused('nr:State', @() nr_take(table, other, tx, sent));
other.room(1) = [];
refused('nr:Room', @() nr_take(table, other, tx, sent));
other.room = double(first.room);
refused('nr:argument', @() nr_take(table, other, tx, sent));
refused('nr:Length', @() nr_take(table, first, tx, sent(1:183)));
refused('nr:Size', @() nr_receiver(table, 12, 1));
end

function simulated(table)
% Two code blocks: at p = 0 a round is delivered at once, at p = 1 nearly every place is erased.
txs = struct('g', 16000, 'qm', 2, 'rv', {0, 2});
seeds = reshape(0:5, 2, 3);
[after, left, erased] = nr_simulate(table, 3840, 1/4, txs, 0, seeds);
same(after, [1; 1; 1]);
same({left, erased}, {zeros(2, 2, 3), zeros(2, 2, 3)});
[after, left, erased] = nr_simulate(table, 3840, 1/4, txs, 1, uint64(seeds));
same(after, [0; 0; 0]);
same(size(left), [2 2 3]);
same(erased, 8000 * ones(2, 2, 3));
same(nr_simulate(table, 3840, 1/4, txs, [1 0], seeds), [2; 2; 2]);
% the first words of the generator from seed 42: two of the four are below the last + 1
words = hex2dec({'a15c02b7'; '7b47f409'; 'ba1d3330'; '83d2f293'});
[~, ~, erased] = nr_simulate(table, 8, 1, struct('g', 4, 'qm', 1), (words(4) + 1) / 2^32, 42);
same(erased, 2);
refused('nr:argument', @() nr_simulate(table, 8, 1, txs(1), 1.5, 1));
refused('nr:argument', @() nr_simulate(table, 8, 1, txs(1), 0.5, -1));
said = refused('nr:argument', @() nr_simulate(table, 8, 1, txs(1), 0.5, int32(1)));
same(said, 'argument: seeds are uint64 or doubles, and whole numbers from 0, below 2^64');
refused('nr:Length', @() nr_simulate(table, 8, 1, txs, 0.5, 1));
refused('nr:Rv', @() nr_simulate(table, 8, 1, struct('g', 4, 'qm', 1, 'rv', 4), 0.5, 1));
end

function soft(table)
% Rate recovery and joining, of one code block and of three.
for it = {bits('01'), struct('g', 40, 'qm', 2), 1; mod((1:7656)' .^ 2, 7) < 3, struct('g', 6000, 'qm', 4, 'nl', 2, 'rv', 2), 0.25}'
  [block, tx, rate] = it{:};
  a = numel(block);
  blocks = nr_cut(block, rate);
  words = nr_codeword(table, blocks, a, rate);
  same(words(nr_places(a, rate, tx)), double(nr_send(table, block, rate, tx)));
  [joined, passed, blockpassed] = nr_join(blocks, a, rate);
  same(joined, block);
  same({passed, blockpassed}, {true(size(blocks, 2), 1), true});
  blocks(1, 1) = ~blocks(1, 1);
  [joined, passed, blockpassed] = nr_join(blocks, a, rate);
  same({sum(joined ~= block), passed(1), all(passed(2:end)), blockpassed}, {1, false, true, false});
end
same(nr_places(8, 1, struct('g', 40, 'qm', 2))(1:4), [1; 37; 2; 38]);
refused('nr:Length', @() nr_join(zeros(23, 1), 8, 1));
refused('nr:Ragged', @() nr_places(8, 1, struct('g', 25, 'qm', 2)));
end

function refusals(table)
block = bits('01');
tx = struct('g', 24, 'qm', 1);
% between 2048ths a rate takes the base graph that 6.2.2 gives this rate
for it = {1/3, 2; 0.67, 2; single(0.67), 2; 0.67 + eps, 1; 0.3, 2; 1e-9, 2; 1, 1}'
  same(nr_plan(3824, it{1}).graph, it{2});
end
same(nr_plan(3840, 0.25 + eps).graph, 1);
[below, above] = nr_near(7640, 0.25);
same([below above], [7632 7656]);
[below, above] = nr_near(2000000, 0.25);
same(below, 1310616);
same(isempty(above), true);
said = refused('nr:Uneven', @() nr_plan(7640, 0.25));
same(isempty(strfind(said, 'nr_near(7640, RATE)')), false);
said = refused('nr:Graph', @() nr_send(table, zeros(4000, 1), 1, tx));
same(isempty(strfind(said, 'base graph 1')), false);
refused('nr:RateRange', @() nr_plan(8, 2));
refused('nr:Size', @() nr_plan(12, 1));
refused('nr:Size', @() nr_send(table, block(1:7), 1, tx));
refused('nr:Ragged', @() nr_send(table, block, 1, struct('g', 25, 'qm', 2)));
refused('nr:Total', @() nr_send(table, block, 1, struct('g', 2^32 - 1, 'qm', 1)));
refused('nr:Rv', @() nr_send(table, block, 1, struct('g', 24, 'qm', 1, 'rv', 4)));
refused('nr:NoneScheduled', @() nr_send(table, block, 1, struct('g', 24, 'qm', 1, 'blocks', 1)));
refused('nr:Graph', @() nr_send(table, zeros(4000, 1), 1, tx));
refused('nr:Lifting', @() nr_encode(table, zeros(39, 1), 2));
refused('nr:Lifting', @() nr_encode(table, zeros(170, 1), 2));
refused('nr:Graph', @() nr_encode(table, zeros(88, 1), 1));
refused('nr:argument', @() nr_encode(table, NaN(40, 1), 2));
refused('nr:Lifting', @() nr_match(zeros(199, 1), 24, 2, 0, 1));
refused('nr:NoBuffer', @() nr_match(zeros(200, 1), 24, 2, 0, 1, 201));
refused('nr:Size', @() nr_cut(zeros(1310728, 1), 1));
refused('nr:Length', @() nr_codeword(table, zeros(23, 1), 8, 1));
refused('nr:Length', @() nr_receive(table, 8, 1, tx, zeros(23, 1)));
refused('nr:Length', @() nr_receive(table, 8, 1, tx, {}));
refused('nr:argument', @() nr_send(table, 2 * block, 1, tx));
refused('nr:argument', @() nr_send(table, block, 1, [tx tx]));
refused('nr:argument', @() nr_lengths(8, 1, [tx tx]));
refused('nr:argument', @() nr_take(table, nr_receiver(table, 8, 1), [tx tx], zeros(24, 1)));
refused('nr:argument', @() nr_send(table, [block block], 1, tx));
refused('nr:argument', @() nr_cut([block block], 1));
refused('nr:argument', @() nr_crc([block block], '16'));
refused('nr:argument', @() nr_send(table, 'text', 1, tx));
refused('nr:argument', @() nr_send(table, sparse(block), 1, tx));
refused('nr:argument', @() nr_send(double(table), block, 1, tx));
refused('nr:argument', @() nr_send(table, block, 1, struct('g', 2.5, 'qm', 1)));
refused('nr:argument', @() nr_send(table, block, 1, struct('g', 24, 'qm', 1, 'blocks', 384)));
refused('nr:argument', @() nr_receive(table, 8, 1, tx, 2 * ones(24, 1)));
refused('nr:argument', @() nr_hard(2, -1));
for given = {true, [0 1 1], uint8([3 200]), logical([0 1])}
  said = refused('nr:argument', @() nr_hard(given{1}, 0));
  same(isempty(regexp(said, 'decisions|unsigned', 'once')), false);
end
refused('nr:argument', @() nr_hard([3 -2]));
refused('nr:argument', @() nr_lengths(8, 1, struct('g', -1, 'qm', 1)));
refused('nr:Ragged', @() nr_lengths(8, 1, struct('g', 25, 'qm', 2)));
refused('nr:Size', @() nr_lengths(12, 1, tx));
refused('nr:Rv', @() nr_buffer(8, 1, 4));
refused('nr:Poly', @() nr_crc(block, '24C'));
refused('nr:Size', @() nr_crc(block(1:7), '16'));
said = refused('nr:Length', @() nr_receive(table, 8, 1, [tx tx], {zeros(24, 1), zeros(23, 1)}));
same(said, 'Length: what was heard of transmission 2 has the length 23, and not 24');
try
  nr_mex('mend');
catch fault
  same(fault.identifier, 'nr:argument');
end
refused('nr:Read', @() nr_table('no such file'));
name = tempname();
file = fopen(name, 'w');
fputs(file, sprintf('2,0,0,0,0,0,0,0,0,0,0\n2,0,x,0,0,0,0,0,0,0,0\n'));
fclose(file);
refused('nr:Number', @() nr_table(name));
delete(name);
end

function values = odd()
values = {[], 'x', {}, {1}, struct(), struct('g', 1), -1, 0.5, NaN, Inf, 1 + 2i, int8(1), single(2), true, zeros(2), @sin, sparse(1), ...
  2^40, cell(3, 1), zeros(11, 1, 'uint16'), uint8([1 2 3])};
end

function odd_arguments(table)
% In the place of each argument stands what nobody means: what is refused is refused by this project.
tx = struct('g', 24, 'qm', 1);
kept = nr_receiver(table, 8, 1);
right = {
  @nr_plan, {8, 1}; @nr_lengths, {8, 1, tx}; @nr_buffer, {8, 1, 0, 0}; @nr_crc, {zeros(8, 1), '16'}; @nr_cut, {zeros(8, 1), 1};
  @nr_codeword, {table, zeros(24, 1), 8, 1}; @nr_encode, {table, zeros(40, 1), 2}; @nr_hard, {1, 0}; @nr_table, {'none'};
  @nr_match, {zeros(200, 1), 24, 2, 0, 1, 200};
  @nr_send, {table, zeros(8, 1), 1, tx, 0}; @nr_receive, {table, 8, 1, tx, {zeros(24, 1)}, 0}; @nr_receiver, {table, 8, 1, 0};
  @nr_take, {table, kept, tx, zeros(24, 1)}; @nr_simulate, {table, 8, 1, tx, 0.5, 1, 0}};
values = odd();
for at = 1:size(right, 1)
  for which = 1:numel(right{at, 2})
    for value = values
      given = right{at, 2};
      given(which) = value;
      ours(@() right{at, 1}(given{:}));
    end
  end
end
for name = {'g', 'qm', 'rv', 'nl', 'blocks'}
  for value = values
    other = tx;
    other.(name{1}) = value{1};
    ours(@() nr_send(table, zeros(8, 1), 1, other));
  end
end
refused('nr:argument', @() nr_send(table, zeros(8, 1), 1, struct('g', 24)));
refused('nr:argument', @() nr_plan(8, {0.5}));
end

function by_hand()
% Whatever nr_mex is given, Octave goes on.
names = {'entries', 'plan', 'lengths', 'buffer', 'crc', 'codeword', 'encode', 'cut', 'send', 'receive', 'start', 'take', 'simulate'};
counts = [1 2 4 3 2 4 3 2 5 6 3 7 7];
values = odd();
rand('seed', 1);
for turn = 1:3000
  at = ceil(rand * numel(names));
  given = values(ceil(rand(1, counts(at)) * numel(values)));
  ours(@() nr_mex(names{at}, given{:}));
end
end

function ours(call)
% A call ends well, or with an error of this project.
try
  call();
catch fault
  if isempty(regexp(fault.identifier, '^nr:\w+$', 'once'))
    error('octave_calls: %s: %s', fault.identifier, fault.message);
  end
end
end

function made = bits(digits)
made = reshape(dec2bin(hex2dec(digits'), 4)' - '0', [], 1);
end

function same(found, wanted)
if ~isequaln(found, wanted) || ~strcmp(class(found), class(wanted))
  disp(found), disp(wanted)
  error('octave_calls: that is not what was wanted');
end
end

function said = refused(id, call)
% Every text begins with the fault's name, and its place if there is one.
try
  call();
catch fault
  said = fault.message;
  if ~strcmp(fault.identifier, id) || isempty(regexp(said, ['^' id(4:end) '( \d+)?: \w']))
    error('octave_calls: %s (%s), where %s was wanted', fault.identifier, said, id);
  end
  return
end
error('octave_calls: nothing was refused, where %s was wanted', id);
end
