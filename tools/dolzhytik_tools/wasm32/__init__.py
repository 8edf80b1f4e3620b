"""tools/wasm32: compiles the package for wasm32-unknown-unknown without std, and runs its tests in
node.

`target` finds or makes the compiler, `copies` and `package` copy the tests, and `recipes`
compares recipes.
"""
