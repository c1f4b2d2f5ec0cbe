"""Families of designs of real size, after those that the AutoBridge paper places (Guo and others, FPGA 2021), each with data and what it must compute."""
from families import bucket, chain, grid, rank, stencil, triangle

# The designs of the suite by name, each as a function that makes it.
DESIGNS = {
    **{f"grid 13 by {cols}": (lambda cols=cols: grid.design(13, cols)) for cols in (2, 4, 6, 8, 10, 12, 14, 16)},
    **{f"stencil of {count}": (lambda count=count: stencil.design(count)) for count in range(1, 9)},
    **{f"triangle of {size}": (lambda size=size: triangle.design(size)) for size in (12, 16, 20, 24)},
    "bucket sort": bucket.design,
    "page rank": rank.design,
    "genomics chain": chain.design,
}
