"""Registers the codec of the module aecp with numcodecs, for arrays in zarr's format 2. With zarr 2:
zarr.array(data, compressor=Aecp(16)). With zarr 3: zarr.create_array(store, data=data,
compressors=Aecp(16), zarr_format=2).

Import this file where the module aecp isn't installed, as in a checkout. If it is installed,
numcodecs finds the codec by itself.
"""

from aecp.codec import Aecp
from numcodecs.registry import register_codec

register_codec(Aecp)
