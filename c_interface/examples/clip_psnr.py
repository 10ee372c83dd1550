import numpy
import v_frame
from v_frame import y4m

_, source = y4m.read_y4m("docs/clips/source.y4m")
_, encoded = y4m.read_y4m("docs/clips/encoded.y4m")
errors = [v_frame.mse(a, b) for a, b in zip(source, encoded)]
print(f"PSNR {10 * numpy.log10(255**2 / numpy.mean(errors)):.2f} dB")
