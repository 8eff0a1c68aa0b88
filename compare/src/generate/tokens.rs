//! Token and System instructions around every length and account count at which something changes.

use super::rng::Rng;
use super::world::World;
use mbelaguy::pack::Instruction;
use original::ids::{SPL_TOKEN, TOKEN_2022};

/// Forms of token and System instructions.
#[derive(Clone, Copy)]
pub enum Form {
    Plain,
    Checked,
    WithFee,
    Initialise,
    Sync,
    Close,
    Fund,
    Stray,
}

pub fn token(world: &World, rng: &mut Rng) -> Instruction {
    let form = rng.weigh(&[
        (30, Form::Plain),
        (15, Form::Checked),
        (10, Form::WithFee),
        (12, Form::Initialise),
        (8, Form::Sync),
        (8, Form::Close),
        (10, Form::Fund),
        (7, Form::Stray),
    ]);
    instruction(form, world, rng)
}

pub fn instruction(form: Form, world: &World, rng: &mut Rng) -> Instruction {
    match form {
        Form::Plain => plain(world, rng),
        Form::Checked => checked(world, rng),
        Form::WithFee => with_fee(world, rng),
        Form::Initialise => initialise(world, rng),
        Form::Sync => one_byte(17, 1, world, rng),
        Form::Close => one_byte(9, 3, world, rng),
        Form::Fund => fund(world, rng),
        Form::Stray => stray(world, rng),
    }
}

fn token_program(world: &World, rng: &mut Rng) -> u32 {
    let id = rng.pick(&[SPL_TOKEN, TOKEN_2022]);
    world.program(id, rng)
}

fn plain(world: &World, rng: &mut Rng) -> Instruction {
    let mut data = vec![3];
    data.extend(rng.amount().to_le_bytes());
    let owner = world.account(rng);
    let accounts = vec![world.token_account(rng), world.token_account(rng), owner];
    sized(token_program(world, rng), accounts, data, world, rng)
}

fn checked(world: &World, rng: &mut Rng) -> Instruction {
    let mut data = vec![12];
    data.extend(rng.amount().to_le_bytes());
    data.push(6);
    let accounts = checked_accounts(world, rng);
    sized(token_program(world, rng), accounts, data, world, rng)
}

fn with_fee(world: &World, rng: &mut Rng) -> Instruction {
    let mut data = vec![26, rng.pick(&[1, 1, 1, 1, 1, 1, 0, 2])];
    data.extend(rng.amount().to_le_bytes());
    data.push(6);
    data.extend(rng.amount().to_le_bytes());
    let accounts = checked_accounts(world, rng);
    let id = rng.pick(&[SPL_TOKEN, TOKEN_2022, TOKEN_2022, TOKEN_2022]);
    sized(world.program(id, rng), accounts, data, world, rng)
}

fn checked_accounts(world: &World, rng: &mut Rng) -> Vec<u8> {
    let source = world.token_account(rng);
    vec![source, world.mint(source, rng), world.token_account(rng), world.account(rng)]
}

fn initialise(world: &World, rng: &mut Rng) -> Instruction {
    let data = match rng.pick(&[1, 16, 18]) {
        1 => vec![1],
        tag => [vec![tag], rng.bytes(32)].concat(),
    };
    let account = world.token_account(rng);
    let accounts = vec![account, world.mint(account, rng)];
    sized(token_program(world, rng), accounts, data, world, rng)
}

/// Sync and close: the tag is all the data.
fn one_byte(tag: u8, count: usize, world: &World, rng: &mut Rng) -> Instruction {
    let mut accounts = vec![world.token_account(rng)];
    accounts.extend(world.accounts(count - 1, rng));
    sized(token_program(world, rng), accounts, vec![tag], world, rng)
}

fn fund(world: &World, rng: &mut Rng) -> Instruction {
    let mut data = vec![rng.pick(&[2, 2, 2, 2, 2, 2, 2, 3]), 0, 0, 0];
    if rng.chance(5) {
        let byte = rng.between(1, 3);
        data[byte] = 1;
    }
    data.extend(rng.amount().to_le_bytes());
    let accounts = vec![world.account(rng), world.token_account(rng)];
    sized(world.system(rng), accounts, data, world, rng)
}

/// Any tag with any length, under a token program or another one.
fn stray(world: &World, rng: &mut Rng) -> Instruction {
    let tag = rng.pick(&[0, 1, 2, 3, 7, 9, 12, 15, 16, 17, 18, 26, 255]);
    let length = rng.pick(&[0, 1, 2, 8, 9, 10, 18, 19, 20, 32, 33, 34]);
    let mut data = rng.bytes(length);
    if let Some(first) = data.first_mut() {
        *first = tag;
    }
    let program = if rng.chance(70) { token_program(world, rng) } else { world.any_program(rng) };
    let count = rng.below(6);
    Instruction { program, accounts: world.accounts(count, rng), data }
}

/// The instruction with as many accounts and bytes as given, or one less, or more: 256 more too, which
/// are none in a single byte.
fn sized(
    program: u32,
    mut accounts: Vec<u8>,
    mut data: Vec<u8>,
    world: &World,
    rng: &mut Rng,
) -> Instruction {
    let count = near(accounts.len(), rng);
    let more = world.accounts(count.saturating_sub(accounts.len()), rng);
    accounts.extend(more);
    accounts.truncate(count);
    let length = near(data.len(), rng);
    let more = rng.bytes(length.saturating_sub(data.len()));
    data.extend(more);
    data.truncate(length);
    Instruction { program, accounts, data }
}

fn near(number: usize, rng: &mut Rng) -> usize {
    match rng.below(100) {
        0..=26 => rng.around(number),
        27 => number + 256,
        _ => number,
    }
}
