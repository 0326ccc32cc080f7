# The register for clipping is set once, before all loops, and not before each tile.
p = fission(product, find(product, 'Unit.clip = _').after())
p = remove_loop(p, 'for j in _: _ #0')
p = fission(p, find(p, 'Unit.clip = _').after())
p = remove_loop(p, 'for i in _: _ #0')
# The machine is left as it was found: nothing reads the register behind the loops, and the report says that it may differ.
p = write_config(p, find(p, 'for i in _: _').after(), Unit, 'clip', 'False')
# Each write of that register becomes the instruction that does it.
p = replace(p, 'Unit.clip = _', set_clip)
p = replace(p, 'Unit.clip = _', set_clip)
emit(p)
