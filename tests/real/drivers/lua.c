/* The interpreter, with soft doubles: arithmetic, strings, tables, closures, errors, and the collector.
 *
 * package: lua5.4
 * sources: src/*.c
 * without: src/lua.c src/luac.c src/linit.c src/liolib.c src/loslib.c src/loadlib.c src/ldblib.c
 * joined: yes
 * flags: -I ROOT/src -Dluai_makeseed(L)=1
 */
#include "real.h"
#include <time.h>
#include <lauxlib.h>
#include <lualib.h>

static const char script[] =
    "local function fib(n) if n < 2 then return n end return fib(n - 1) + fib(n - 2) end\n"
    "local out = {}\n"
    "local function add(...) out[#out + 1] = string.format(...) end\n"
    "add('%d %g %.14g', fib(15), 1 / 3, math.sqrt(2))\n"
    "add('%s %s', 7 // 2, 2 ^ 0.5)\n"
    "add('%s', tostring(1e15) .. (10 / 2))\n"
    "local t = {} for i = 1, 50 do t[i] = (i * 7919) % 101 end table.sort(t)\n"
    "add('%s', table.concat(t, ','))\n"
    "add('%s', (('tick task queue'):gsub('%w+', string.upper)))\n"
    "add('%s', select(2, pcall(error, 'bad')))\n"
    "add('%s', math.tointeger(3.0) or 'none')\n"
    "local co = coroutine.wrap(function() for i = 1, 3 do coroutine.yield(i * 0.5) end end)\n"
    "add('%g %g', co(), co())\n"
    "for i = 1, 200 do local s = {} s[1] = ('x'):rep(i) end collectgarbage()\n"
    "add('%q', 0.1)\n"
    "return table.concat(out, ';')\n";

#ifdef WINDPLAY
/* The board's library has no clock; it only seeds random numbers. */
time_t time(time_t *now)
{
    return 0;
}
#endif

void drive(void)
{
    static const luaL_Reg libraries[] = {{"_G", luaopen_base},         {"string", luaopen_string}, {"table", luaopen_table},
                                         {"math", luaopen_math},       {"coroutine", luaopen_coroutine}, {NULL, NULL}};
    lua_State *state = luaL_newstate();
    const luaL_Reg *library;
    const char *text;
    size_t size = 0;

    for (library = libraries; library->func; library++) {
        luaL_requiref(state, library->name, library->func, 1);
        lua_pop(state, 1);
    }
    show("load", luaL_loadstring(state, script));
    show("call", lua_pcall(state, 0, 1, 0));
    text = lua_tolstring(state, -1, &size);
    show("size", size);
    show("text", sum_of(text, size));
    lua_settop(state, 0);
    show("syntax", luaL_loadstring(state, "x ="));
    show("message", sum_of(lua_tostring(state, -1), strlen(lua_tostring(state, -1))));
    lua_close(state);
}
