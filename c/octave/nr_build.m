function nr_build(prefix)
% nr_build           builds nr_mex, which the other files call, in the current folder, for Octave or for MATLAB
% nr_build(PREFIX)   over the library that `make install PREFIX=..` put there
%
% Without PREFIX the library is looked for where these files are installed, or in the checkout that they are in.
here = fileparts(mfilename('fullpath'));
if nargin < 1
  prefixes = {fullfile(here, '..', '..', '..'), fullfile(here, '..')};
else
  prefixes = {prefix};
end
[library, include] = find_library(prefixes);
% It is built where no name has a space, which mkoctfile does not take.
before = pwd;
folder = tempname();
mkdir(folder);
after = onCleanup(@() leave(before, folder));
copyfile(fullfile(here, '*.c'), folder);
copyfile(fullfile(here, '*.h'), folder);
copyfile(fullfile(include, 'nr.h'), folder);
copyfile(library, folder);
cd(folder);
if exist('OCTAVE_VERSION', 'builtin')
  [said, status] = mkoctfile('--mex', 'nr_mex.c', 'libnr.a');
  if status ~= 0
    error('nr:build', 'nr_mex is not built: %s', said);
  end
else
  mex('nr_mex.c', 'libnr.a');
end
movefile(['nr_mex.' mexext()], before);
end

function leave(before, folder)
cd(before);
delete(fullfile(folder, '*'));
rmdir(folder);
end

function [library, include] = find_library(prefixes)
folders = {'lib', fullfile('lib', 'x86_64-linux-gnu'), 'out'};
for at = 1:numel(prefixes)
  for which = 1:numel(folders)
    library = fullfile(prefixes{at}, folders{which}, 'libnr.a');
    include = fullfile(prefixes{at}, 'include');
    if strcmp(folders{which}, 'out')
      include = prefixes{at};
    end
    if exist(library, 'file') && exist(fullfile(include, 'nr.h'), 'file')
      return
    end
  end
end
error('nr:build', 'libnr.a and nr.h are not found: nr_build(PREFIX) says where they are');
end
