//! Stand-in for `async_trait`: every `async fn` of the block becomes a plain `fn` that
//! runs its future at once. No future of the original files ever waits.

use proc_macro::{Delimiter, Group, TokenStream, TokenTree};

/// Turns each `async fn name(..) -> R { body }` into `fn name(..) -> R { run(async { body }) }`.
#[proc_macro_attribute]
pub fn async_trait(_: TokenStream, item: TokenStream) -> TokenStream {
    item.into_iter()
        .map(|token| match token {
            TokenTree::Group(block) if block.delimiter() == Delimiter::Brace => braces(members(block.stream())),
            other => other,
        })
        .collect()
}

fn members(stream: TokenStream) -> TokenStream {
    let mut tokens = stream.into_iter().peekable();
    let mut out: Vec<TokenTree> = Vec::new();
    while let Some(token) = tokens.next() {
        let starts_async_fn = is_word(&token, "async") && tokens.peek().is_some_and(|next| is_word(next, "fn"));
        if !starts_async_fn {
            out.push(token);
            continue;
        }
        let mut answer: Option<Vec<TokenTree>> = None;
        for token in tokens.by_ref() {
            if let TokenTree::Group(body) = &token
                && body.delimiter() == Delimiter::Brace
            {
                out.push(run_at_once(answer.unwrap_or_default(), body.stream()));
                break;
            }
            if let Some(answer) = &mut answer {
                answer.push(token.clone());
            } else if is_arrow_head(&token) && out.last().is_some_and(is_dash) {
                answer = Some(Vec::new());
            }
            out.push(token);
        }
    }
    out.into_iter().collect()
}

fn run_at_once(answer: Vec<TokenTree>, body: TokenStream) -> TokenTree {
    let answer: TokenStream = answer.into_iter().collect();
    let body = format!(
        "let future = ::core::pin::pin!(async move {{
             if let Some(value) = None::<{answer}> {{
                 return value;
             }}
             let value: {answer} = {{ {body} }};
             value
         }});
         let mut context = ::core::task::Context::from_waker(::core::task::Waker::noop());
         match ::core::future::Future::poll(future, &mut context) {{
             ::core::task::Poll::Ready(value) => value,
             ::core::task::Poll::Pending => unreachable!(),
         }}"
    );
    braces(body.parse().expect("the wrapped body is Rust"))
}

fn braces(stream: TokenStream) -> TokenTree {
    TokenTree::Group(Group::new(Delimiter::Brace, stream))
}

fn is_word(token: &TokenTree, word: &str) -> bool {
    matches!(token, TokenTree::Ident(ident) if ident.to_string() == word)
}

fn is_dash(token: &TokenTree) -> bool {
    matches!(token, TokenTree::Punct(punct) if punct.as_char() == '-')
}

fn is_arrow_head(token: &TokenTree) -> bool {
    matches!(token, TokenTree::Punct(punct) if punct.as_char() == '>')
}
