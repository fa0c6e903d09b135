"""What `tools/tower` is made of: texts and bytes, tables in their parts, the proved library, and what is told of its answers. None of it decides
whether a proposal holds, or makes one: that is always the library's answer, and nothing here evaluates a formula."""
