function table = nr_table(file)
% TABLE = nr_table(FILE) reads a shift table (TS 38.212, Tables 5.3.2-2 and 5.3.2-3) from a file of comma-separated values. Each
% record has the base graph, the row, the column and the values of the sets 0 to 7. TABLE has a column for each entry.
nr_wanted(ischar(file), 'FILE is the name of a file');
table = nr_call('entries', nr_text(file));
end
