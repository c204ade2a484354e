"""Wrong bodies of the extension of C and of pages of requests, for tests/wrong_bodies.py: a name, a file, a text, what is put in its place, and the test."""


def of_c(name: str, text: str, put: str, test: str):
    return name, "_fast.c", text, put, f"tests.test_fast -k {test}"


def of_pages(name: str, text: str, put: str, test: str, file: str = "wsgi.py"):
    return name, file, text, put, f"tests.test_wsgi -k {test}"


FAST = [
    of_c("the extension drops a reference to arguments", "    Py_INCREF(of);\n", "", "test_references"),
    of_c("the extension drops a reference to a digest", "    Py_INCREF(digest);\n", "", "test_references"),
    of_c("the extension keeps a reference", "    const Key *found = known_key(self, known, given);\n", "    Py_INCREF(given);\n    const Key *found = known_key(self, known, given);\n", "test_references"),
    of_c("the extension keeps a key's memory", "    free_object(it);\n}\n\nstatic PyMemberDef", "}\n\nstatic PyMemberDef", "test_references -k test_memory_stays_flat"),
    of_c("the extension keeps a site's buffer", "    PyMem_Free(self->buffer);\n", "", "test_a_site_that_is_no_more"),
    of_c("the extension answers for another key", "memcpy(self->key.args, bytes, DIGEST_SIZE);", "memcpy(self->key.args, bytes, DIGEST_SIZE - 4);", "test_a_hit_is_of"),
    of_c("the extension answers for arguments of other types", "if (Py_TYPE(PyTuple_GetItem(one, at)) != Py_TYPE(PyTuple_GetItem(other, at)))", "if (0 && other)", "test_a_hit_is_of"),
    of_c("the extension leaves a call open", "    self->give_up(self->site, txn);\n", "", "test_a_hit_that_is_none"),
    of_c("the extension cuts a long value", "return number == TXC_NO_ROOM ? tell_once_more(self, txn, size) : number;", "return number == TXC_NO_ROOM ? (*size = self->room, TXC_DONE) : number;", "test_it_says"),
    of_c("the extension begins a page at no pin", "    PyObject *begun = number == TXC_DONE ? ", "    PyObject *begun = number <= TXC_MISS ? ", "test_there_is_no_page"),
    of_c("the extension asks for another place", "(uint32_t)(place / TABLES), 0};", "(uint32_t)(place / TABLES / 2), 0};", "test_what_is_asked"),
    of_c("the extension has one level", "    self->key.function = (uint8_t)level;\n", "    self->key.function = 1;\n", "test_a_call_within"),
    of_c("the extension takes what is no key", "    if ((PyObject *)Py_TYPE(found) != self->key_type) {\n", "    if (0) {\n", "test_numbers_that_are_none"),
    ("an extension of another form", "_fast.py", "    if (found.FORM, found.ABI) != (FORM, _library.ABI):\n", "    if False:\n", "tests.test_fast -k test_one_of_another_form"),
    ("a mark in the place of a value is shown as a hit", "_page.py", "if data is None or data == TOO_LONG:", "if data is None:", "tests.test_values -k test_values_that_are_too_long"),
    ("a hit of a function that was cleared", "_page.py", " or forms is not cache._growth.forms:", ":", "tests.test_fast -k test_a_function_that_was_cleared"),
    ("a hit of a cache that was cleared", "_page.py", "era != self._era or ", "", "tests.test_fast -k test_a_cache_that_was_cleared"),
    ("a page that goes on in a snapshot it had before a known hit", "_page.py", "        self._stamp = self._snapshot = None  # it may hold in fewer of them\n        self._has_shown", "        self._has_shown",
     "tests.test_pages -k test_a_page_is_of_one_moment"),
    of_pages("a page for POST", 'frozenset(("GET", "HEAD"))', 'frozenset(("GET", "HEAD", "POST"))', "test_no_page_for"),
    of_pages("no page for HEAD", 'frozenset(("GET", "HEAD"))', 'frozenset(("GET",))', "test_no_page_for"),
    of_pages("a request made again after its response began", "            if is_last or response.has_begun:\n", "            if is_last:\n", "test_nothing_is_made_again"),
    of_pages("a request with a body made again", "is_last=_has_body(environ)", "is_last=False", "test_a_request_with_a_body"),
    of_pages("a response that was made of the error is shown", "if page.lost is None or is_last or response.has_begun:", "if True:", "test_flask -k test_a_response_that"),
    of_pages("a response that is not shown stays open", "            body.close()\n", "            pass\n", "test_a_response_that"),
    of_pages("a request is made again in what the first made of it", "            environ.clear()\n            environ.update(before)\n", "", "test_a_response_that"),
    of_pages("a page that has ended is used", "            self._process = ENDED\n", "            pass\n", "test_tasks", "_page.py"),
    of_pages("a snapshot that was lost is not told", "                        self.lost = found\n", "                        pass\n", "test_flask -k test_a_response_that", "_page.py"),
    of_pages("a page of a coroutine in the loop's thread", "return await asyncio.to_thread(functools.partial(self.run, view, *args, max_age=max_age, after=after, **named))",
             "return self.run(view, *args, max_age=max_age, after=after, **named)", "test_a_page_in_a_thread", "cache.py"),
]
