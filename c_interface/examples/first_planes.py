import numpy
import v_frame

a = numpy.full((48, 64), 100, numpy.uint8)
b = a.copy()
b[10, 20] = 130

print(v_frame.first_difference(a, b))
print(v_frame.sad(a, b), v_frame.sse(a, b))
print(f"{v_frame.psnr(a, b):.2f} dB, SSIM {v_frame.ssim(a, b):.4f}")
print(v_frame.half(b).shape, v_frame.half(b)[5, 10])
