function text = nr_text(file)
% The octets of a file, as a column of uint8.
id = fopen(file, 'r');
if id < 0
  error('nr:Read', 'Read: %s cannot be read', file);
end
text = fread(id, Inf, '*uint8');
fclose(id);
end
