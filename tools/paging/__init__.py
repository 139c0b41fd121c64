"""What tools/page makes: the bitcode of the proved programs, their WebAssembly, and the page that has both."""
