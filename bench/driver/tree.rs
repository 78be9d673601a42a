//! Rows to the Rust's trees and back. Name k is spelled "v" and k.

use rossi::formula::tag::*;
use rossi::formula::{BoundIdentDecl, Expression, ExpressionKind, Form, FormulaFactory, Predicate, PredicateKind};

pub struct Trees {
    ff: FormulaFactory,
    binary: Vec<Option<BinaryExprOp>>,
    relational: Vec<Option<RelationalOp>>,
}

pub fn spelled(k: u32) -> String {
    format!("v{k}")
}

fn number(name: &str) -> u32 {
    name[1..].parse().unwrap()
}

fn find<T: Copy>(all: &[T], tag: u32, of: impl Fn(T) -> u32) -> T {
    all.iter().copied().find(|o| of(*o) == tag).unwrap()
}

fn table<T: Copy>(all: &[T], of: impl Fn(T) -> u32) -> Vec<Option<T>> {
    let mut out = vec![None; 1000];
    for o in all {
        out[of(*o) as usize] = Some(*o);
    }
    out
}

impl Trees {
    pub fn new() -> Trees {
        Trees {
            ff: FormulaFactory::default_factory(),
            binary: table(&BinaryExprOp::ALL, |o| o.tag()),
            relational: table(&RelationalOp::ALL, |o| o.tag()),
        }
    }

    /// Declarations with a flag each, and an annotation where it is 1.
    fn noted(&self, row: &[u32], at: &mut usize) -> Vec<BoundIdentDecl> {
        let n = row[*at];
        *at += 1;
        (0..n)
            .map(|_| {
                let (name, flag) = (row[*at], row[*at + 1]);
                *at += 2;
                let note = (flag == 1).then(|| self.expr(row, at));
                self.ff.bound_ident_decl(spelled(name), None, note, None)
            })
            .collect()
    }

    fn decls(&self, row: &[u32], at: &mut usize) -> Vec<BoundIdentDecl> {
        let n = row[*at] as usize;
        let names = &row[*at + 1..*at + 1 + n];
        *at += 1 + n;
        names.iter().map(|k| self.ff.bound_ident_decl(spelled(*k), None, None, None)).collect()
    }

    pub fn expr(&self, row: &[u32], at: &mut usize) -> Expression {
        let ff = &self.ff;
        let tag = row[*at];
        *at += 1;
        match tag {
            1 | 2 => {
                let v = row[*at];
                *at += 1;
                if tag == 1 {
                    ff.free_identifier(spelled(v), None, None)
                } else {
                    ff.bound_identifier(v, None, None)
                }
            }
            801..=803 | 871..=873 => {
                assert_eq!(row[*at], 0);
                *at += 1;
                let noted = tag > 803;
                let op = find(&QuantExprOp::ALL, if noted { tag - 70 } else { tag }, |o| o.tag());
                let decls = if noted { self.noted(row, at) } else { self.decls(row, at) };
                let guard = self.pred(row, at);
                let value = self.expr(row, at);
                ff.quantified_expression(op, decls, guard, value, None, Form::Explicit)
            }
            751..=764 => {
                let op = find(&UnaryExprOp::ALL, tag, |o| o.tag());
                let e = self.expr(row, at);
                ff.unary_expression(op, e, None)
            }
            _ => {
                let op = self.binary[tag as usize].unwrap();
                let l = self.expr(row, at);
                let r = self.expr(row, at);
                ff.binary_expression(op, l, r, None)
            }
        }
    }

    pub fn pred(&self, row: &[u32], at: &mut usize) -> Predicate {
        let ff = &self.ff;
        let tag = row[*at];
        *at += 1;
        match tag {
            8 => {
                let p = self.pred(row, at);
                ff.not_predicate(p, None)
            }
            251 | 252 => {
                let op = find(&BinaryPredOp::ALL, tag, |o| o.tag());
                let l = self.pred(row, at);
                let r = self.pred(row, at);
                ff.binary_predicate(op, l, r, None)
            }
            351 | 352 => {
                let op = find(&AssocPredOp::ALL, tag, |o| o.tag());
                let n = row[*at];
                *at += 1;
                let children = (0..n).map(|_| self.pred(row, at)).collect();
                ff.associative_predicate(op, children, None)
            }
            851 | 852 | 861 | 862 => {
                let noted = tag > 852;
                let op = find(&QuantPredOp::ALL, if noted { tag - 10 } else { tag }, |o| o.tag());
                let decls = if noted { self.noted(row, at) } else { self.decls(row, at) };
                let body = self.pred(row, at);
                ff.quantified_predicate(op, decls, body, None)
            }
            _ => {
                let op = self.relational[tag as usize].unwrap();
                let l = self.expr(row, at);
                let r = self.expr(row, at);
                ff.relational_predicate(op, l, r, None)
            }
        }
    }
}

fn noted(decls: &[BoundIdentDecl]) -> bool {
    decls.iter().any(|d| d.annotation().is_some())
}

fn put_decls(decls: &[BoundIdentDecl], noted: bool, out: &mut Vec<u32>) {
    out.push(decls.len() as u32);
    if !noted {
        out.extend(decls.iter().map(|d| number(d.name())));
        return;
    }
    for d in decls {
        out.extend([number(d.name()), u32::from(d.annotation().is_some())]);
        if let Some(e) = d.annotation() {
            put_expr(e, out);
        }
    }
}

pub fn put_expr(x: &Expression, out: &mut Vec<u32>) {
    use ExpressionKind as K;
    match x.kind() {
        K::FreeIdentifier(name) => out.extend([1, number(name)]),
        K::BoundIdentifier(i) => out.extend([2, *i]),
        K::Binary { op, left, right } => {
            out.push(op.tag());
            put_expr(left, out);
            put_expr(right, out);
        }
        K::Unary { op, child } => {
            out.push(op.tag());
            put_expr(child, out);
        }
        K::Quantified { op, decls, pred, expr, .. } => {
            let noted = noted(decls);
            out.extend([op.tag() + if noted { 70 } else { 0 }, 0]);
            put_decls(decls, noted, out);
            put_pred(pred, out);
            put_expr(expr, out);
        }
        _ => unreachable!("the rows hold no other expression"),
    }
}

pub fn put_pred(x: &Predicate, out: &mut Vec<u32>) {
    use PredicateKind as K;
    match x.kind() {
        K::Not(p) => {
            out.push(8);
            put_pred(p, out);
        }
        K::Relational { op, left, right } => {
            out.push(op.tag());
            put_expr(left, out);
            put_expr(right, out);
        }
        K::Binary { op, left, right } => {
            out.push(op.tag());
            put_pred(left, out);
            put_pred(right, out);
        }
        K::Associative { op, children } => {
            out.extend([op.tag(), children.len() as u32]);
            children.iter().for_each(|p| put_pred(p, out));
        }
        K::Quantified { op, decls, pred } => {
            let noted = noted(decls);
            out.push(op.tag() + if noted { 10 } else { 0 });
            put_decls(decls, noted, out);
            put_pred(pred, out);
        }
        _ => unreachable!("the rows hold no other predicate"),
    }
}
