/* Mesa as a decoder, speaking PROTOCOL.md for the seventeen picture readers that have a format,
   and accepted cases alone. Textures go in compressed; a shader hands out the bits of each texel as
   whole numbers, so nothing is rounded on the way back. Eight-bit formats come back as
   pixel words. Of EAC an element is red16 + 65536 * green16, the sixteen bits that Mesa
   makes of its eleven; signed ones in two's complement. */
#include <EGL/egl.h>
#include <EGL/eglext.h>
#include <GLES3/gl3.h>
#include <math.h>
#include <stdint.h>
#include <stdio.h>
#include <stdlib.h>
#include <string.h>

enum { MOST_DATA = 262144, MOST_IMAGE = 65536 };

/* By the numbers of the readers; the first is ETC1 from its own extension; three are those of S3TC and one BPTC's, then come S3TC's other
   one and the four of RGTC. */
enum { S3TC = 8, BC2 = 12, BC4_SIGNED = 14, BC5_SIGNED = 16, READERS = 17 };
static const GLenum FORMAT[READERS] = {0x8D64, 0x9274, 0x9276, 0x9278, 0x9270, 0x9271, 0x9272, 0x9273,
                                       0x83F0, 0x83F1, 0x83F3, 0x8E8C, 0x83F2, 0x8DBB, 0x8DBC, 0x8DBD, 0x8DBE};

static void need(int fact, const char *what)
{
    if (fact) return;
    fprintf(stderr, "mesa: %s\n", what);
    exit(1);
}

static void start(void)
{
    EGLDisplay display = eglGetPlatformDisplay(EGL_PLATFORM_SURFACELESS_MESA, EGL_DEFAULT_DISPLAY, NULL);
    need(display != EGL_NO_DISPLAY && eglInitialize(display, NULL, NULL), "no surfaceless EGL display");
    need(eglBindAPI(EGL_OPENGL_ES_API), "no GLES");
    const EGLint kind[] = {EGL_SURFACE_TYPE, 0, EGL_RENDERABLE_TYPE, EGL_OPENGL_ES3_BIT, EGL_NONE};
    const EGLint version[] = {EGL_CONTEXT_MAJOR_VERSION, 3, EGL_NONE};
    EGLConfig config;
    EGLint found = 0;
    need(eglChooseConfig(display, kind, &config, 1, &found) && found > 0, "no configuration for GLES 3");
    EGLContext context = eglCreateContext(display, config, EGL_NO_CONTEXT, version);
    need(context != EGL_NO_CONTEXT && eglMakeCurrent(display, EGL_NO_SURFACE, EGL_NO_SURFACE, context), "no GLES 3 context");
    fprintf(stderr, "mesa: %s, %s\n", glGetString(GL_VERSION), glGetString(GL_RENDERER));
}

static GLuint shader(GLenum stage, const char *text)
{
    GLuint made = glCreateShader(stage);
    GLint good = 0;
    glShaderSource(made, 1, &text, NULL);
    glCompileShader(made);
    glGetShaderiv(made, GL_COMPILE_STATUS, &good);
    need(good, "a shader does not compile");
    return made;
}

/* One triangle over everything; each place fetches the texel of its own number. */
static void use_program(void)
{
    GLuint program = glCreateProgram();
    GLint good = 0;
    glAttachShader(program, shader(GL_VERTEX_SHADER,
        "#version 300 es\n"
        "void main() { gl_Position = vec4(vec2((gl_VertexID << 1) & 2, gl_VertexID & 2) * 2.0 - 1.0, 0.0, 1.0); }\n"));
    glAttachShader(program, shader(GL_FRAGMENT_SHADER,
        "#version 300 es\n"
        "precision highp float; precision highp int; precision highp sampler2D;\n"
        "uniform sampler2D from; out uvec4 bits;\n"
        "void main() { bits = floatBitsToUint(texelFetch(from, ivec2(gl_FragCoord.xy), 0)); }\n"));
    glLinkProgram(program);
    glGetProgramiv(program, GL_LINK_STATUS, &good);
    need(good, "the program does not link");
    glUseProgram(program);
}

static GLuint texture(void)
{
    GLuint made;
    glGenTextures(1, &made);
    glBindTexture(GL_TEXTURE_2D, made);
    glTexParameteri(GL_TEXTURE_2D, GL_TEXTURE_MIN_FILTER, GL_NEAREST);
    glTexParameteri(GL_TEXTURE_2D, GL_TEXTURE_MAG_FILTER, GL_NEAREST);
    return made;
}

/* A target of whole numbers, made anew where the size changes. */
static void target(GLint width, GLint height)
{
    static GLuint frame, image;
    static GLint last_width, last_height;
    if (width == last_width && height == last_height) return;
    if (!frame) glGenFramebuffers(1, &frame);
    if (image) glDeleteTextures(1, &image);
    image = texture();
    glTexStorage2D(GL_TEXTURE_2D, 1, GL_RGBA32UI, width, height);
    glBindFramebuffer(GL_FRAMEBUFFER, frame);
    glFramebufferTexture2D(GL_FRAMEBUFFER, GL_COLOR_ATTACHMENT0, GL_TEXTURE_2D, image, 0);
    need(glCheckFramebufferStatus(GL_FRAMEBUFFER) == GL_FRAMEBUFFER_COMPLETE, "no target of this size");
    glViewport(0, 0, width, height);
    last_width = width;
    last_height = height;
}

static void texels(int reader, GLint width, GLint height, const uint8_t *data, GLsizei length, float *out)
{
    target(width, height);
    GLuint picture = texture();
    glCompressedTexImage2D(GL_TEXTURE_2D, 0, FORMAT[reader], width, height, 0, length, data);
    glDrawArrays(GL_TRIANGLES, 0, 3);
    glReadPixels(0, 0, width, height, GL_RGBA_INTEGER, GL_UNSIGNED_INT, out);
    need(glGetError() == GL_NO_ERROR, "GLES refused a case");
    glDeleteTextures(1, &picture);
}

/* The whole number that a texel is a fraction of `most` by; anything else ends the run. */
static int whole(float value, int most)
{
    double scaled = (double)value * most;
    int nearest = (int)lrint(scaled);
    need(fabs(scaled - nearest) < 1e-2, "a texel is no whole fraction");
    return nearest;
}

static uint32_t element(int reader, const float *t)
{
    if (reader == BC4_SIGNED || reader == BC5_SIGNED) /* -127 to 127 as bytes from 0 on, so that 0 stands at 127 */
        return 0xFF000000 | (uint32_t)(whole(t[0], 127) + 127) << 16 |
               (uint32_t)(reader == BC5_SIGNED ? whole(t[1], 127) + 127 : 0) << 8;
    if (reader < 4 || reader >= S3TC)
        return (uint32_t)whole(t[3], 255) << 24 | (uint32_t)whole(t[0], 255) << 16 | (uint32_t)whole(t[1], 255) << 8 |
               (uint32_t)whole(t[2], 255);
    int most = reader % 2 ? 32767 : 65535;
    return (uint32_t)(uint16_t)whole(t[0], most) | (uint32_t)(uint16_t)whole(t[1], most) << 16;
}

int main(void)
{
    static uint8_t data[MOST_DATA];
    static uint64_t head[8]; /* number, a, b, c, width, height, bytes, elements */
    static uint32_t image[MOST_IMAGE];
    static float out[MOST_IMAGE * 4];
    const uint32_t done[2] = {0, 0};
    start();
    use_program();
    while (fread(head, 8, 8, stdin) == 8) {
        need(head[0] < READERS && FORMAT[head[0]] && head[6] <= MOST_DATA && head[7] <= MOST_IMAGE, "no such case here");
        need(fread(data, 1, head[6], stdin) == head[6], "data cut short");
        need(fread(image, 4, head[7], stdin) == head[7], "image cut short");
        need(head[4] && head[5] && head[7] == head[4] * head[5], "only pictures that show something");
        texels((int)head[0], (GLint)head[4], (GLint)head[5], data, (GLsizei)head[6], out);
        for (uint32_t k = 0; k < head[7]; k++) image[k] = element((int)head[0], out + 4 * k);
        fwrite(done, 4, 2, stdout);
        fwrite(image, 4, head[7], stdout);
        fflush(stdout);
    }
    return 0;
}
