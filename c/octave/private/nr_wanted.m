function nr_wanted(condition, text)
% An error of an argument, if the condition does not hold.
if ~condition
  error('nr:argument', 'argument: %s', text);
end
end
