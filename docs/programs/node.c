/* pikhsen_argon2_encoded and _verify for Node, each a promise: a thread of Node's pool does the work, and the loop goes on.
 * cc -shared -fPIC -I/usr/include/node node.c -lpikhsen -o pikhsen.node */
#include <node_api.h>
#include <pikhsen.h>
#include <stdlib.h>
#include <string.h>

/* A call: the password and, to enrol, the salt, or else the text. */
struct job {
	napi_async_work work;
	napi_deferred promised;
	unsigned int status, enrols;
	size_t password_len, other_len, text_len;
	char text[PIKHSEN_ENCODED_ROOM(16, 32)], *other, password[];
};

/* 64 MiB, 3 passes, 4 lanes; and at most 1 GiB and 2^23 block functions, whoever wrote the text. */
static void work(napi_env env, void *data)
{
	struct job *of = data;

	(void)env;
	of->status = of->enrols
	    ? pikhsen_argon2_encoded(PIKHSEN_ARGON2ID, 0x13, 3, 65536, 4, of->password, of->password_len, of->other,
		  of->other_len, 32, 65536, 1 << 18, of->text, sizeof of->text, &of->text_len)
	    : pikhsen_argon2_verify(of->other, of->other_len, of->password, of->password_len, 1 << 20, 1 << 23);
}

/* The text, or else the status. */
static void done(napi_env env, napi_status ended, void *data)
{
	struct job *of = data;
	napi_value value;

	(void)ended;
	if (of->enrols && of->status == PIKHSEN_OK)
		napi_create_string_utf8(env, of->text, of->text_len, &value);
	else
		napi_create_uint32(env, of->status, &value);
	napi_resolve_deferred(env, of->promised, value);
	napi_delete_async_work(env, of->work);
	explicit_bzero(of->password, of->password_len);
	free(of);
}

/* begin(enrols, password, other): all bytes are of Buffers. */
static napi_value begin(napi_env env, napi_callback_info info)
{
	napi_value given[3], promise, name;
	size_t count = 3, password_len, other_len;
	void *password, *other;
	bool enrols;
	struct job *of;

	if (napi_get_cb_info(env, info, &count, given, NULL, NULL) != napi_ok || count != 3
	    || napi_get_value_bool(env, given[0], &enrols) != napi_ok
	    || napi_get_buffer_info(env, given[1], &password, &password_len) != napi_ok
	    || napi_get_buffer_info(env, given[2], &other, &other_len) != napi_ok
	    || !(of = calloc(1, sizeof *of + password_len + other_len))) {
		napi_throw_type_error(env, NULL, "a bool and two Buffers are expected");
		return NULL;
	}
	of->enrols = enrols;
	of->password_len = password_len;
	of->other = of->password + password_len;
	of->other_len = other_len;
	if (password_len)
		memcpy(of->password, password, password_len);
	if (other_len)
		memcpy(of->other, other, other_len);
	napi_create_promise(env, &of->promised, &promise);
	napi_create_string_utf8(env, "pikhsen", NAPI_AUTO_LENGTH, &name);
	napi_create_async_work(env, NULL, name, work, done, of, &of->work);
	napi_queue_async_work(env, of->work);
	return promise;
}

NAPI_MODULE_INIT()
{
	napi_value function;

	napi_create_function(env, "begin", NAPI_AUTO_LENGTH, begin, NULL, &function);
	napi_set_named_property(env, exports, "begin", function);
	return exports;
}
