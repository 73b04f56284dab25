"""Programs that several of the tools measure: the numbers of Fibonacci, by calls and by spawns."""


def calls(n):
    """Returns a program that calls a C function for the number of Fibonacci of this index."""
    return f"""int fib(int n)
{{
    int x;
    int y;
    if (n < 2)
        return n;
    x = fib(n - 1);
    y = fib(n - 2);
    return x + y;
}}
cilk int main(void)
{{
    int x;
    x = fib({n});
    return x;
}}
"""


def spawns(n):
    """Returns a program that spawns a procedure for it."""
    return f"""cilk int fib(int n)
{{
    int x;
    int y;
    if (n < 2)
        return n;
    x = spawn fib(n - 1);
    y = spawn fib(n - 2);
    sync;
    return x + y;
}}
cilk int main(void)
{{
    int x;
    x = spawn fib({n});
    sync;
    return x;
}}
"""
