"""An independent model of register blocks, and what tools/interop and tools/bench share."""
