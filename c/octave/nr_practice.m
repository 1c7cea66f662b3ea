function table = nr_practice()
% TABLE = nr_practice() is the practice table, which comes with these files: both base graphs, with random shift values in place of
% the published ones. Those are read from the text of TS 38.212 by linksim-table read, or python -m nr.table read, into a file for
% nr_table.
here = fileparts(mfilename('fullpath'));
if exist(fullfile(here, 'practice.csv'), 'file')
  table = nr_table(fullfile(here, 'practice.csv'));
else
  examples = fullfile(here, '..', '..', 'examples');
  table = nr_call('entries', [nr_text(fullfile(examples, 'drawn.csv')); nr_text(fullfile(examples, 'practice.csv'))]);
end
end
