function parity = nr_crc(bits, poly)
% PARITY = nr_crc(BITS, POLY) are the parity bits of whole octets (TS 38.212, 5.1). BITS is a column of bits, and PARITY is a
% column of its class. POLY is '24A', '24B' or '16', as nrCRCEncode has them.
nr_wanted(ischar(poly), 'POLY is ''24A'', ''24B'' or ''16''');
names = {'24A', '24B', '16'};
at = find(strcmpi(names, poly));
if isempty(at)
  error('nr:Poly', 'Poly: the generator polynomials are 24A, 24B and 16');
end
parity = nr_call('crc', at - 1, bits);
end
