function [numbers, blocks] = nr_tx(txs)
% The numbers of transmissions, a column each (rv, g, qm, nl, whether some code blocks are left out), and their code blocks.
nr_wanted(isstruct(txs) && all(isfield(txs, {'g', 'qm'})), 'a transmission is a structure with the fields g and qm at least');
numbers = zeros(5, numel(txs));
blocks = cell(1, numel(txs));
for at = 1:numel(txs)
  tx = txs(at);
  some = field(tx, 'blocks', []);
  nr_wanted(isnumeric(some) && isreal(some), 'the field blocks has numbers of code blocks, from 0');
  blocks{at} = double(some);
  numbers(:, at) = [one(tx, 'rv', 0); one(tx, 'g', NaN); one(tx, 'qm', NaN); one(tx, 'nl', 1); ~isempty(some)];
end
end

function value = field(tx, name, default)
value = default;
if isfield(tx, name) && ~isempty(tx.(name))
  value = tx.(name);
end
end

function value = one(tx, name, default)
value = field(tx, name, default);
nr_wanted(isnumeric(value) && isreal(value) && isscalar(value), ['the field ' name ' of a transmission is a number']);
value = double(value);
end
