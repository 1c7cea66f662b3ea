function varargout = nr_call(varargin)
% What nr_mex answers; an error of it says what a file's own would, without the name nr_mex that Octave puts before it.
try
  [varargout{1:max(nargout, 1)}] = nr_mex(varargin{:});
catch fault
  error(fault.identifier, '%s', regexprep(fault.message, '^nr_mex: ', ''));
end
end
