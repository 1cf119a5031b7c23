//! 01's small program, the twin's.

fn main() -> std::io::Result<()> {
    twin::session::run(std::io::stdin().lock(), std::io::stdout().lock())
}
