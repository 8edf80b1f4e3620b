"""tools/web: builds and tests the JavaScript package, rust/web."""
