# Encodes a PNG as BC7 with Godot's own encoder, and writes it as a DDS file: godot3-server -s oracle/encode.gd IN.png OUT.dds
extends SceneTree

const BPTC = 5 # Image::COMPRESS_BPTC, which scripts have no name for


func _init():
	var words = OS.get_cmdline_args()
	var image = Image.new()
	if image.load(words[words.size() - 2]) != OK:
		printerr("cannot read the picture")
		quit(1)
		return
	image.convert(Image.FORMAT_RGBA8)
	image.compress(BPTC, Image.COMPRESS_SOURCE_GENERIC, 1.0)
	if image.get_format() != Image.FORMAT_BPTC_RGBA:
		printerr("Godot has no BC7 encoder")
		quit(1)
		return
	var out = File.new()
	out.open(words[words.size() - 1], File.WRITE)
	out.store_buffer("DDS ".to_ascii())
	for number in [124, 0x81007, image.get_height(), image.get_width(), image.get_data().size(), 0, 1]:
		out.store_32(number)
	for _k in range(11):
		out.store_32(0)
	out.store_32(32)
	out.store_32(4)
	out.store_buffer("DX10".to_ascii())
	for number in [0, 0, 0, 0, 0, 0x1000, 0, 0, 0, 0, 98, 3, 0, 1, 0]:
		out.store_32(number)
	out.store_buffer(image.get_data())
	out.close()
	quit(0)
