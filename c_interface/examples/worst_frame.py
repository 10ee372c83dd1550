import numpy
import v_frame
from v_frame import y4m

header, source = y4m.read_y4m("docs/clips/source.y4m")
_, encoded = y4m.read_y4m("docs/clips/encoded.y4m")
values, frames = [], []
for a, b in zip(source, encoded):
    values.append(v_frame.psnr(a, b))
    frames.append(b)

worst = int(numpy.argmin(values))
print(f"{header.width}x{header.height}, {len(values)} frames")
print(f"worst: frame {worst + 1}, {values[worst]:.2f} dB")
colors = frames[worst].to_rgb()
print(colors.shape, colors.dtype, colors[26, 40])
v_frame.write_png("worst.png", colors)
