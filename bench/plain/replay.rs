//! A plain Rust program that replays the lines of a tournament: an answer to each line, and the report at the end. It is
//! what `replay` is measured against, by `bench/plain.sh`, and was written from `docs/FORMATS.md` and `docs/RULES.md`
//! with the standard library alone.
//!
//! It takes the lines of the plan, `go`, `enter`, `begin`, `act`, `time`, `settle`, `stop` and notes, and makes all of
//! their checks. It does not know `balance`, `break`, `level`, `race`, `hands` and `round`, which it answers as lines
//! outside the grammar; so there is one level, no race and no hand-for-hand. Want of memory ends it by a panic.

use std::collections::HashMap;
use std::io::{self, Read, Write};
use std::process::ExitCode;

const GREATEST_NUMBER: u64 = (1 << 53) - 1;
const GREATEST_AMOUNT: u64 = 1_000_000_000;
const LONGEST_LINE: usize = 400;
const LONGEST_INPUT: usize = 256 << 20;
const MOST_ENTRIES: usize = 640;
const MOST_LEVELS: usize = 40;
const MOST_SEATS: usize = 10;

/// The words behind `no`.
type Refusal = &'static str;
type Checked<T = ()> = Result<T, Refusal>;

fn refuse_if(holds: bool, refusal: Refusal) -> Checked {
    if holds { Err(refusal) } else { Ok(()) }
}

// Lines

#[derive(Clone, Copy, PartialEq, Eq, Hash)]
struct Name([u8; 16]);

#[derive(Clone, Copy, PartialEq)]
enum Game {
    Holdem,
    Omaha,
    HiLo,
}

#[derive(Clone, Copy)]
struct Blinds {
    small: u64,
    big: u64,
    unit: u64,
}

#[derive(Clone, Copy)]
enum Act {
    Fold,
    Check,
    Call,
    AllIn,
    Bet(u64),
    Raise(u64),
}

/// 52 cards, each a rank from 0 to 12 times 4 and a suit.
type Row = [u8; 52];

enum Event {
    Game(Game),
    Number(Item, u64),
    Blinds(Blinds),
    Shares(Vec<u64>),
    Go,
    Enter(Name, u64, u64),
    Begin(u64, Row),
    Act(u64, Name, Act),
    Time(u64),
    Settle(u64),
    Stop,
}

/// The items of a plan that are one number.
#[derive(Clone, Copy)]
enum Item {
    Tables,
    Seats,
    Stack,
    BuyIn,
    Late,
}

/// The words of a line that are not taken yet, with one space between each two.
struct Words<'a>(Option<&'a [u8]>);

impl<'a> Words<'a> {
    fn next(&mut self) -> Option<&'a [u8]> {
        let rest = self.0?;
        match rest.iter().position(|&byte| byte == b' ') {
            Some(space) => {
                self.0 = Some(&rest[space + 1..]);
                Some(&rest[..space])
            }
            None => self.rest(),
        }
    }

    fn rest(&mut self) -> Option<&'a [u8]> {
        self.0.take()
    }

    fn number(&mut self) -> Option<u64> {
        number(self.next()?)
    }
}

fn number(word: &[u8]) -> Option<u64> {
    if word.is_empty() || word.len() > 16 || (word[0] == b'0' && word.len() > 1) {
        return None;
    }
    let mut number = 0;
    for &digit in word {
        if !digit.is_ascii_digit() {
            return None;
        }
        number = number * 10 + u64::from(digit - b'0');
    }
    (number <= GREATEST_NUMBER).then_some(number)
}

fn name(word: &[u8]) -> Option<Name> {
    let is_name = matches!(word.len(), 1..=16)
        && word[0].is_ascii_alphabetic()
        && word.iter().all(|&letter| letter.is_ascii_alphanumeric() || letter == b'_')
        && word != b"floor";
    is_name.then(|| {
        let mut letters = [0; 16];
        letters[..word.len()].copy_from_slice(word);
        Name(letters)
    })
}

const RANKS: &[u8; 13] = b"23456789TJQKA";
const SUITS: &[u8; 4] = b"cdhs";
const NO_LETTER: u8 = 0xff;

const fn places_of(letters: &[u8]) -> [u8; 256] {
    let mut places = [NO_LETTER; 256];
    let mut place = 0;
    while place < letters.len() {
        places[letters[place] as usize] = place as u8;
        place += 1;
    }
    places
}

static RANK_OF: [u8; 256] = places_of(RANKS);
static SUIT_OF: [u8; 256] = places_of(SUITS);

fn row(word: &[u8]) -> Option<Row> {
    if word.len() != 104 {
        return None;
    }
    let (mut cards, mut letters_seen) = ([0; 52], 0);
    for (card, letters) in cards.iter_mut().zip(word.chunks_exact(2)) {
        let (rank, suit) = (RANK_OF[usize::from(letters[0])], SUIT_OF[usize::from(letters[1])]);
        letters_seen |= rank | suit;
        *card = rank << 2 | suit;
    }
    (letters_seen != NO_LETTER).then_some(cards)
}

fn repeats_a_card(row: &Row) -> bool {
    row.iter().fold(0u64, |seen, card| seen | 1 << card).count_ones() < 52
}

fn act(words: &mut Words) -> Option<Act> {
    Some(match words.next()? {
        b"fold" => Act::Fold,
        b"check" => Act::Check,
        b"call" => Act::Call,
        b"allin" => Act::AllIn,
        b"bet" => Act::Bet(words.number()?),
        b"raise" => Act::Raise(words.number()?),
        _ => return None,
    })
}

/// The event of a line, or none where the line is not in the grammar.
fn event(line: &[u8]) -> Option<Event> {
    if line.len() > LONGEST_LINE {
        return None;
    }
    let mut words = Words(Some(line));
    let event = match words.next()? {
        b"act" => Event::Act(words.number()?, name(words.next()?)?, act(&mut words)?),
        b"enter" => Event::Enter(name(words.next()?)?, words.number()?, words.number()?),
        b"begin" => Event::Begin(words.number()?, row(words.rest()?)?),
        b"settle" => Event::Settle(words.number()?),
        b"time" => Event::Time(words.number()?),
        b"game" => Event::Game(match words.next()? {
            b"holdem" => Game::Holdem,
            b"omaha" => Game::Omaha,
            b"hilo" => Game::HiLo,
            _ => return None,
        }),
        b"tables" => Event::Number(Item::Tables, words.number()?),
        b"seats" => Event::Number(Item::Seats, words.number()?),
        b"stack" => Event::Number(Item::Stack, words.number()?),
        b"buyin" => Event::Number(Item::BuyIn, words.number()?),
        b"late" => Event::Number(Item::Late, words.number()?),
        b"blinds" => Event::Blinds(Blinds { small: words.number()?, big: words.number()?, unit: words.number()? }),
        b"shares" => {
            let shares = words.rest()?.split(|&byte| byte == b' ').map(number).collect::<Option<Vec<u64>>>()?;
            if shares.len() > 64 {
                return None;
            }
            Event::Shares(shares)
        }
        b"go" => Event::Go,
        b"stop" => Event::Stop,
        _ => return None,
    };
    words.rest().is_none().then_some(event)
}

// The plan

#[derive(Default)]
struct Draft {
    game: Option<Game>,
    tables: Option<u64>,
    seats: Option<u64>,
    stack: Option<u64>,
    buy_in: Option<u64>,
    late: Option<u64>,
    blinds: Vec<Blinds>,
    shares: Vec<u64>,
}

struct Plan {
    game: Game,
    tables: usize,
    seats: usize,
    stack: u64,
    buy_in: u64,
    late: u64,
    blinds: Vec<Blinds>,
    shares: Vec<u64>,
}

impl Draft {
    fn give_game(&mut self, game: Game) -> Checked {
        refuse_if(self.game.is_some(), "4 PlanWrong game")?;
        self.game = Some(game);
        Ok(())
    }

    fn give_number(&mut self, item: Item, number: u64) -> Checked {
        let (given, bounds, wrong) = match item {
            Item::Tables => (&mut self.tables, 1..=64, "4 PlanWrong tables"),
            Item::Seats => (&mut self.seats, 2..=MOST_SEATS as u64, "4 PlanWrong seats"),
            Item::Stack => (&mut self.stack, 1..=GREATEST_AMOUNT, "4 PlanWrong stack"),
            Item::BuyIn => (&mut self.buy_in, 0..=GREATEST_AMOUNT, "4 PlanWrong buyin"),
            Item::Late => (&mut self.late, 1..=MOST_LEVELS as u64, "4 PlanWrong late"),
        };
        refuse_if(given.is_some() || !bounds.contains(&number), wrong)?;
        *given = Some(number);
        Ok(())
    }

    fn give_blinds(&mut self, next: Blinds) -> Checked {
        let Blinds { small, big, unit } = next;
        let is_right = self.blinds.len() < MOST_LEVELS
            && unit > 0
            && 1 <= small
            && small <= big
            && big <= GREATEST_AMOUNT
            && small % unit == 0
            && big % unit == 0
            && self.blinds.last().is_none_or(|last| (1..=6).any(|times| last.unit * times == unit));
        refuse_if(!is_right, "4 PlanWrong blinds")?;
        self.blinds.push(next);
        Ok(())
    }

    fn give_shares(&mut self, shares: Vec<u64>) -> Checked {
        let is_right = self.shares.is_empty()
            && shares.iter().all(|share| (1..=1000).contains(share))
            && shares.is_sorted_by(|earlier, later| earlier >= later)
            && shares.iter().sum::<u64>() <= 1000;
        refuse_if(!is_right, "4 PlanWrong shares")?;
        self.shares = shares;
        Ok(())
    }

    fn plan(&self) -> Checked<Plan> {
        let plan = Plan {
            game: self.game.ok_or("4 PlanWrong game")?,
            tables: self.tables.ok_or("4 PlanWrong tables")? as usize,
            seats: self.seats.ok_or("4 PlanWrong seats")? as usize,
            stack: self.stack.ok_or("4 PlanWrong stack")?,
            buy_in: self.buy_in.ok_or("4 PlanWrong buyin")?,
            late: self.late.ok_or("4 PlanWrong late")?,
            blinds: self.blinds.clone(),
            shares: self.shares.clone(),
        };
        refuse_if(plan.blinds.is_empty(), "4 PlanWrong blinds")?;
        refuse_if(plan.shares.is_empty(), "4 PlanWrong shares")?;
        let last = plan.blinds.get(plan.late as usize - 1).ok_or("4 PlanWrong late")?;
        refuse_if(plan.stack % last.unit != 0, "4 PlanWrong stack")?;
        Ok(plan)
    }
}

// Values of hands, pots and awards

/// A category, and then ranks as bits: those that make the category and those beside them.
type Value = (u8, u16, u16);

fn top(ranks: u16, count: u32) -> u16 {
    let mut ranks = ranks;
    while ranks.count_ones() > count {
        ranks &= ranks - 1;
    }
    ranks
}

/// The top of the highest run of five ranks; 5-4-3-2-A runs too.
fn run(ranks: u16) -> Option<u16> {
    let from_ace = ranks << 1 | ranks >> 12 & 1;
    let tops = from_ace & from_ace << 1 & from_ace << 2 & from_ace << 3 & from_ace << 4;
    (tops != 0).then(|| top(tops, 1))
}

/// The value of the best five of five to seven cards.
fn high_value(cards: impl IntoIterator<Item = u8>) -> Value {
    let mut suits = [0u16; 4];
    let [mut once, mut twice, mut thrice, mut four] = [0u16; 4];
    for card in cards {
        let rank = 1 << (card >> 2);
        suits[usize::from(card & 3)] |= rank;
        four |= thrice & rank;
        thrice |= twice & rank;
        twice |= once & rank;
        once |= rank;
    }
    let flush = suits.into_iter().find(|suit| suit.count_ones() >= 5);
    if let Some(run) = flush.and_then(run) {
        return (8, run, 0);
    }
    if four != 0 {
        return (7, four, top(once & !four, 1));
    }
    let three = top(thrice, 1);
    let pairs = top(twice & !three, if three == 0 { 2 } else { 1 });
    if three != 0 && pairs != 0 {
        return (6, three, pairs);
    }
    if let Some(flush) = flush {
        return (5, 0, top(flush, 5));
    }
    if let Some(run) = run(once) {
        return (4, run, 0);
    }
    if three != 0 {
        return (3, three, top(once & !three, 2));
    }
    (pairs.count_ones() as u8, pairs, top(once & !pairs, 5 - 2 * pairs.count_ones()))
}

/// All choices of two hole cards and three of the board.
fn omaha_choices<'a>(hole: &'a [u8], board: &'a [u8; 5]) -> impl Iterator<Item = [u8; 5]> + 'a {
    let pairs = (0..hole.len()).flat_map(|first| (first + 1..hole.len()).map(move |second| (first, second)));
    pairs.flat_map(move |(one, two)| {
        let left_out = (0..5).flat_map(|first| (first + 1..5).map(move |second| (first, second)));
        left_out.map(move |(first, second)| {
            let mut three = (0..5).filter(|&place| place != first && place != second).map(|place| board[place]);
            let mut next = || three.next().expect("three of five are left");
            [hole[one], hole[two], next(), next(), next()]
        })
    })
}

fn best_high(game: Game, hole: &[u8], board: &[u8; 5]) -> Value {
    match game {
        Game::Holdem => high_value(hole.iter().chain(board).copied()),
        _ => omaha_choices(hole, board).map(high_value).max().expect("there are choices"),
    }
}

/// The best low as bits of its ranks, the ace lowest: a low beats those that are greater.
fn best_low(hole: &[u8], board: &[u8; 5]) -> Option<u16> {
    let ranks = |five: [u8; 5]| five.iter().fold(0u16, |ranks, card| ranks | 1 << ((card >> 2) + 1) % 13);
    omaha_choices(hole, board).map(ranks).filter(|low| low.count_ones() == 5 && low >> 8 == 0).min()
}

/// A pot is an amount and the players who may win it, as bits.
fn pots(hand: &Hand) -> Vec<(u64, u16)> {
    let mut heights: Vec<u64> = hand.dealt.iter().map(|dealt| dealt.put_in()).filter(|&put| put > 0).collect();
    heights.sort_unstable();
    heights.dedup();
    let mut pots: Vec<(u64, u16)> = Vec::new();
    let mut below = 0;
    for height in heights {
        let (mut payers, mut eligible) = (0, 0);
        for (place, dealt) in hand.dealt.iter().enumerate() {
            if dealt.put_in() >= height {
                payers += 1;
                eligible |= u16::from(dealt.is_live) << place;
            }
        }
        let amount = (height - below) * payers;
        match pots.last_mut() {
            Some(pot) if eligible == 0 || pot.1 == eligible => pot.0 += amount,
            _ => pots.push((amount, eligible)),
        }
        below = height;
    }
    pots
}

/// Each winner gets the quotient in units, and the units that are left go to the first ones from the button's left.
fn share_out(amount: u64, unit: u64, winners: &[usize], awards: &mut [u64; MOST_SEATS]) {
    let (units, count) = (amount / unit, winners.len() as u64);
    for (turn, &winner) in winners.iter().enumerate() {
        awards[winner] += (units / count + u64::from((turn as u64) < units % count)) * unit;
    }
}

fn showdown_awards(game: Game, hand: &Hand) -> [u64; MOST_SEATS] {
    let mut awards = [0; MOST_SEATS];
    let hole_count = if game == Game::Holdem { 2 } else { 4 };
    let (players, from_left) = (hand.dealt.len(), hand.first_after(hand.marks.button));
    let burned = players * hole_count;
    let board = [1, 2, 3, 5, 7].map(|place| hand.row[burned + place]);
    let (mut highs, mut lows) = ([(0, 0, 0); MOST_SEATS], [None; MOST_SEATS]);
    for turn in 0..players {
        let place = (from_left + turn) % players;
        if hand.dealt[place].is_live {
            let mut hole = [0; 4];
            for (card, round) in hole.iter_mut().zip(0..hole_count) {
                *card = hand.row[round * players + turn];
            }
            highs[place] = best_high(game, &hole[..hole_count], &board);
            lows[place] = if game == Game::HiLo { best_low(&hole, &board) } else { None };
        }
    }
    for (amount, eligible) in pots(hand) {
        let in_order = (0..players).map(|turn| (from_left + turn) % players);
        let in_order: Vec<usize> = in_order.filter(|&place| eligible >> place & 1 == 1).collect();
        let best = in_order.iter().map(|&place| highs[place]).max();
        let high: Vec<usize> = in_order.iter().copied().filter(|&place| Some(highs[place]) == best).collect();
        let least = in_order.iter().filter_map(|&place| lows[place]).min();
        let low: Vec<usize> = in_order.into_iter().filter(|&place| least.is_some() && lows[place] == least).collect();
        if low.is_empty() || low == high {
            share_out(amount, hand.blinds.unit, &high, &mut awards);
        } else {
            let lower = amount / hand.blinds.unit / 2 * hand.blinds.unit;
            share_out(amount - lower, hand.blinds.unit, &high, &mut awards);
            share_out(lower, hand.blinds.unit, &low, &mut awards);
        }
    }
    awards
}

// A hand

/// The seats of the button and the blinds.
#[derive(Clone, Copy)]
struct Marks {
    button: usize,
    small: usize,
    big: usize,
}

struct Dealt {
    player: usize,
    seat: usize,
    began_with: u64,
    behind: u64,
    on_street: u64,
    is_live: bool,
    has_acted: bool,
}

impl Dealt {
    fn put_in(&self) -> u64 {
        self.began_with - self.behind
    }

    fn can_act(&self) -> bool {
        self.is_live && self.behind > 0
    }

    fn put(&mut self, amount: u64) {
        self.behind -= amount;
        self.on_street += amount;
    }
}

struct Hand {
    marks: Marks,
    blinds: Blinds,
    is_pot_limit: bool,
    row: Row,
    /// In rising seat.
    dealt: Vec<Dealt>,
    /// How many are live, and how many of these have chips.
    live: usize,
    able: usize,
    street: u8,
    level: u64,
    full_raise: u64,
    pot: u64,
    /// What short blinds lack; it counts in the pot before the flop.
    lacking: u64,
    /// The place in `dealt` of the player who is due.
    due: Option<usize>,
}

impl Hand {
    fn begin(marks: Marks, blinds: Blinds, is_pot_limit: bool, row: Row, dealt: Vec<Dealt>) -> Hand {
        let (live, able, level) = (dealt.len(), dealt.len(), blinds.big);
        let (street, full_raise, pot, lacking, due) = (0, level, 0, 0, None);
        let mut hand =
            Hand { marks, blinds, is_pot_limit, row, dealt, live, able, street, level, full_raise, pot, lacking, due };
        hand.post(marks.small, blinds.small);
        hand.post(marks.big, blinds.big);
        hand.look_for_due(hand.first_after(marks.big));
        hand
    }

    fn post(&mut self, seat: usize, blind: u64) {
        if let Some(dealt) = self.dealt.iter_mut().find(|dealt| dealt.seat == seat) {
            let posted = blind.min(dealt.behind);
            dealt.put(posted);
            self.able -= usize::from(dealt.behind == 0);
            self.pot += posted;
            self.lacking += blind - posted;
        }
    }

    /// The place of the first player clockwise after a seat.
    fn first_after(&self, seat: usize) -> usize {
        self.dealt.iter().position(|dealt| dealt.seat > seat).unwrap_or(0)
    }

    /// Nobody is asked where one player alone is live, or alone has chips and has put in what each other live one has.
    fn is_closed(&self) -> bool {
        let live = || self.dealt.iter().filter(|dealt| dealt.is_live);
        match (self.live, self.able) {
            (1, _) | (_, 0) => true,
            (_, 1) => {
                let greatest = live().map(|dealt| dealt.on_street).max();
                live().find(|dealt| dealt.can_act()).map(|dealt| dealt.on_street) >= greatest
            }
            _ => false,
        }
    }

    /// Who is due, looked for from a place of `dealt` on.
    fn due_from(&self, first: usize) -> Option<usize> {
        if self.is_closed() {
            return None;
        }
        let is_due = |dealt: &Dealt| dealt.can_act() && (!dealt.has_acted || dealt.on_street < self.level);
        let (before, behind) = self.dealt.split_at(first);
        behind.iter().position(is_due).map(|place| first + place).or_else(|| before.iter().position(is_due))
    }

    /// Finds who is due, on the next street where nobody is on this one and two can act.
    fn look_for_due(&mut self, first: usize) {
        self.due = self.due_from(first);
        while self.due.is_none() && self.street < 3 && self.live > 1 && self.able > 1 {
            self.street += 1;
            self.level = 0;
            self.full_raise = self.blinds.big;
            for dealt in &mut self.dealt {
                dealt.on_street = 0;
                dealt.has_acted = false;
            }
            self.due = self.due_from(self.first_after(self.marks.button));
        }
    }

    /// The checks of whose turn it is, and the place of the player.
    fn check_turn(&self, player: usize) -> Checked<usize> {
        let place = self.dealt.iter().position(|dealt| dealt.player == player).ok_or("20 NotDealt")?;
        refuse_if(self.due.is_some_and(|due| due != place), "21 NotTurn")?;
        self.due.ok_or("22 HandOver")
    }

    fn is_past_pot(&self, dealt: &Dealt, level: u64) -> bool {
        let pot = self.pot + if self.street == 0 { self.lacking } else { 0 };
        self.is_pot_limit && level > self.level + pot + (self.level - dealt.on_street)
    }

    fn is_not_reopened(&self, dealt: &Dealt) -> bool {
        dealt.has_acted && self.level - dealt.on_street < self.full_raise
    }

    fn check_act(&self, dealt: &Dealt, act: Act) -> Checked {
        let most = dealt.on_street + dealt.behind;
        match act {
            Act::Check => refuse_if(dealt.on_street < self.level, "24 CheckFacing"),
            Act::Call => refuse_if(dealt.on_street == self.level, "25 NothingToCall"),
            Act::Bet(to) => {
                refuse_if(self.level > 0, "26 BetFacing")?;
                refuse_if(to < self.full_raise && to != most, "28 TooSmall")?;
                refuse_if(to > most, "29 PastStack")?;
                refuse_if(self.is_past_pot(dealt, to), "30 PastPot")?;
                refuse_if(to % self.blinds.unit != 0, "32 NotUnit")
            }
            Act::Raise(to) => {
                refuse_if(self.level == 0, "27 NothingToRaise")?;
                let is_all_in = to == most && to > self.level;
                refuse_if(to < self.level + self.full_raise && !is_all_in, "28 TooSmall")?;
                refuse_if(to > most, "29 PastStack")?;
                refuse_if(self.is_past_pot(dealt, to), "30 PastPot")?;
                refuse_if(self.is_not_reopened(dealt), "31 NotReopened")?;
                refuse_if(to % self.blinds.unit != 0, "32 NotUnit")
            }
            Act::AllIn if most > self.level => {
                refuse_if(self.is_past_pot(dealt, most), "30 PastPot")?;
                refuse_if(self.is_not_reopened(dealt), "31 NotReopened")
            }
            Act::AllIn | Act::Fold => Ok(()),
        }
    }

    fn act(&mut self, place: usize, act: Act) -> Checked {
        self.check_act(&self.dealt[place], act)?;
        let dealt = &mut self.dealt[place];
        let most = dealt.on_street + dealt.behind;
        let to = match act {
            Act::Fold | Act::Check => dealt.on_street,
            Act::Call => self.level.min(most),
            Act::AllIn => most,
            Act::Bet(to) | Act::Raise(to) => to,
        };
        let is_fold = matches!(act, Act::Fold);
        dealt.is_live = !is_fold;
        dealt.has_acted = true;
        self.pot += to - dealt.on_street;
        dealt.put(to - dealt.on_street);
        self.live -= usize::from(is_fold);
        self.able -= usize::from(!dealt.can_act());
        if to > self.level {
            self.full_raise = self.full_raise.max(to - self.level);
            self.level = to;
        }
        self.look_for_due((place + 1) % self.dealt.len());
        Ok(())
    }

    fn act_in_time(&mut self) -> Checked {
        let due = self.due.ok_or("22 HandOver")?;
        let act = if self.dealt[due].on_street < self.level { Act::Fold } else { Act::Check };
        self.act(due, act)
    }

    /// What each player gets.
    fn awards(&self, game: Game) -> [u64; MOST_SEATS] {
        let mut live = (0..self.dealt.len()).filter(|&place| self.dealt[place].is_live);
        match (live.next(), live.next()) {
            (Some(last), None) => {
                let mut awards = [0; MOST_SEATS];
                awards[last] = self.pot;
                awards
            }
            _ => showdown_awards(game, self),
        }
    }
}

// The tournament

struct Player {
    name: Name,
    stack: u64,
}

/// A player who is out, with the stack with which they began their last hand and the number of the settled hand.
struct Bust {
    player: usize,
    stack: u64,
    group: u64,
}

#[derive(Default)]
struct Table {
    /// The players by seat, of which the first is not used.
    seats: [Option<usize>; MOST_SEATS + 1],
    count: usize,
    marks: Option<Marks>,
    hand: Option<Hand>,
}

#[derive(Default)]
struct Tournament {
    draft: Draft,
    plan: Option<Plan>,
    players: Vec<Player>,
    known: HashMap<Name, usize>,
    tables: Vec<Table>,
    has_begun: bool,
    busts: Vec<Bust>,
    settled: u64,
    is_stopped: bool,
}

impl Tournament {
    fn apply(&mut self, event: Event) -> Checked {
        match event {
            Event::Game(game) => self.draft()?.give_game(game),
            Event::Number(item, number) => self.draft()?.give_number(item, number),
            Event::Blinds(blinds) => self.draft()?.give_blinds(blinds),
            Event::Shares(shares) => self.draft()?.give_shares(shares),
            Event::Go => {
                let plan = self.draft()?.plan()?;
                self.tables.resize_with(plan.tables, Table::default);
                self.plan = Some(plan);
                Ok(())
            }
            Event::Enter(name, table, seat) => self.enter(name, table, seat),
            Event::Begin(table, row) => self.begin(table, row),
            Event::Act(table, name, act) => {
                self.running_plan()?;
                let place = match self.due(table).filter(|&(_, player)| self.players[player].name == name) {
                    Some((place, _)) => place,
                    None => {
                        let player = *self.known.get(&name).ok_or("7 NameUnknown")?;
                        self.hand(table)?.check_turn(player)?
                    }
                };
                self.hand(table)?.act(place, act)
            }
            Event::Time(table) => {
                self.running_plan()?;
                self.hand(table)?.act_in_time()
            }
            Event::Settle(table) => self.settle(table),
            Event::Stop => self.stop(),
        }
    }

    fn draft(&mut self) -> Checked<&mut Draft> {
        refuse_if(self.plan.is_some(), "3 PlanLate")?;
        Ok(&mut self.draft)
    }

    fn running_plan(&self) -> Checked<&Plan> {
        let plan = self.plan.as_ref().ok_or("2 NoPlan")?;
        refuse_if(self.is_stopped, "5 Stopped")?;
        Ok(plan)
    }

    fn table(&self, number: u64) -> Option<&Table> {
        self.tables.get(usize::try_from(number).ok()?.checked_sub(1)?)
    }

    fn hand(&mut self, table: u64) -> Checked<&mut Hand> {
        let place = usize::try_from(table).ok().and_then(|number| number.checked_sub(1));
        let table = place.and_then(|place| self.tables.get_mut(place)).ok_or("8 NoTable")?;
        table.hand.as_mut().ok_or("14 NotPlaying")
    }

    /// The place in the hand at a table, and the player, who is due there; they have entered and are dealt in.
    fn due(&self, table: u64) -> Option<(usize, usize)> {
        let hand = self.table(table)?.hand.as_ref()?;
        hand.due.map(|place| (place, hand.dealt[place].player))
    }

    fn may_be_entered(&self, table: &Table) -> bool {
        !self.has_begun || table.count > 0
    }

    fn is_over(&self) -> bool {
        !self.busts.is_empty() && self.players.len() - self.busts.len() == 1
    }

    fn enter(&mut self, name: Name, number: u64, seat: u64) -> Checked {
        let plan = self.running_plan()?;
        let stack = plan.stack;
        refuse_if(self.known.contains_key(&name), "6 NameKnown")?;
        let table = self.table(number).filter(|table| self.may_be_entered(table)).ok_or("8 NoTable")?;
        refuse_if(!(1..=plan.seats as u64).contains(&seat), "9 NoSeat")?;
        refuse_if(table.seats[seat as usize].is_some(), "10 SeatTaken")?;
        let is_fewer = |other: &Table| self.may_be_entered(other) && other.count < table.count;
        refuse_if(self.tables.iter().any(is_fewer), "11 NotFewest")?;
        refuse_if(1 > plan.late, "12 LateClosed")?;
        refuse_if(self.is_over(), "43 Over")?;
        refuse_if(self.players.len() == MOST_ENTRIES, "44 ListFull")?;
        let player = self.players.len();
        self.players.push(Player { name, stack });
        self.known.insert(name, player);
        let table = &mut self.tables[number as usize - 1];
        table.seats[seat as usize] = Some(player);
        table.count += 1;
        Ok(())
    }

    fn begin(&mut self, number: u64, row: Row) -> Checked {
        let plan = self.running_plan()?;
        let (seats, blinds, is_pot_limit) = (plan.seats, plan.blinds[0], plan.game != Game::Holdem);
        let table = self.table(number).filter(|table| table.count > 0).ok_or("8 NoTable")?;
        refuse_if(table.hand.is_some(), "13 Playing")?;
        refuse_if(table.count == 1, "15 Lone")?;
        let fullest = self.tables.iter().map(|table| table.count).max().unwrap_or(0);
        refuse_if(fullest - table.count >= if seats >= 7 { 3 } else { 2 }, "16 Halted")?;
        refuse_if(repeats_a_card(&row), "19 DeckWrong")?;
        let table = &mut self.tables[number as usize - 1];
        let (marks, waits) = next_marks(table, seats);
        let mut dealt = Vec::with_capacity(table.count);
        for seat in 1..=seats {
            if let Some(player) = table.seats[seat].filter(|_| !waits[seat]) {
                let stack = std::mem::take(&mut self.players[player].stack);
                let (began_with, behind) = (stack, stack);
                dealt.push(Dealt { player, seat, began_with, behind, on_street: 0, is_live: true, has_acted: false });
            }
        }
        table.marks = Some(marks);
        table.hand = Some(Hand::begin(marks, blinds, is_pot_limit, row, dealt));
        self.has_begun = true;
        Ok(())
    }

    fn settle(&mut self, number: u64) -> Checked {
        let game = self.running_plan()?.game;
        refuse_if(self.hand(number)?.due.is_some(), "23 NotOver")?;
        let table = &mut self.tables[number as usize - 1];
        let hand = table.hand.take().expect("the hand was looked at");
        for (dealt, award) in hand.dealt.iter().zip(hand.awards(game)) {
            let stack = dealt.behind + award;
            self.players[dealt.player].stack = stack;
            if stack == 0 {
                table.seats[dealt.seat] = None;
                table.count -= 1;
                self.busts.push(Bust { player: dealt.player, stack: dealt.began_with, group: self.settled });
            }
        }
        self.settled += 1;
        Ok(())
    }

    /// Ends the tournament; hands in play are void.
    fn stop(&mut self) -> Checked {
        self.running_plan()?;
        for hand in self.tables.iter_mut().filter_map(|table| table.hand.take()) {
            for dealt in &hand.dealt {
                self.players[dealt.player].stack = dealt.began_with;
            }
        }
        self.is_stopped = true;
        Ok(())
    }
}

/// The marks of a table's next hand, and which seats wait.
fn next_marks(table: &Table, seats: usize) -> (Marks, [bool; MOST_SEATS + 1]) {
    let is_taken = |seat: &usize| table.seats[*seat].is_some();
    let clockwise = |after: usize| (after + 1..=seats).chain(1..=after);
    let next = |after: usize| clockwise(after).find(is_taken).expect("two players sit there");
    let mut waits = [false; MOST_SEATS + 1];
    let Some(last) = table.marks else {
        let button = next(0);
        let small = if table.count == 2 { button } else { next(button) };
        return (Marks { button, small, big: next(small) }, waits);
    };
    let big = next(last.big);
    if table.count == 2 {
        let other = next(big);
        return (Marks { button: other, small: other, big }, waits);
    }
    let (small, button) = (last.big, last.small);
    let mut waiting = 0;
    for seat in clockwise(button).take_while(|&seat| seat != small).filter(is_taken) {
        waits[seat] = true;
        waiting += 1;
    }
    if table.count - waiting < 3 {
        let button = clockwise(small).take(seats - 1).filter(is_taken).last().expect("others sit there");
        return (Marks { button, small, big }, [false; MOST_SEATS + 1]);
    }
    (Marks { button, small, big }, waits)
}

// The report

/// The place and the player of each who is out, and of the winner, by place and then by entry.
fn standings(tournament: &Tournament) -> Vec<(usize, usize)> {
    let busts = &tournament.busts;
    let in_play = tournament.players.len() - busts.len();
    let place = |bust: &Bust| {
        let is_ahead = |other: &&Bust| (other.group, other.stack) > (bust.group, bust.stack);
        1 + in_play + busts.iter().filter(is_ahead).count()
    };
    let mut standings: Vec<(usize, usize)> = busts.iter().map(|bust| (place(bust), bust.player)).collect();
    if tournament.is_over() {
        standings.extend(tournament.tables.iter().flat_map(|table| &table.seats).flatten().map(|&player| (1, player)));
    }
    standings.sort_unstable();
    standings
}

fn prizes(plan: &Plan, entries: usize) -> Vec<u64> {
    let pool = entries as u64 * plan.buy_in;
    let mut prizes: Vec<u64> = plan.shares.iter().take(entries).map(|share| pool * share / 1000).collect();
    prizes[0] += pool - prizes.iter().sum::<u64>();
    prizes.resize(entries, 0);
    prizes
}

fn report(tournament: &Tournament, out: &mut Vec<u8>) -> io::Result<()> {
    let (players, tables) = (&tournament.players, &tournament.tables);
    let name = |player: usize| {
        let name = &players[player].name.0;
        String::from_utf8_lossy(&name[..name.iter().position(|&letter| letter == 0).unwrap_or(16)])
    };
    let stack = tournament.plan.as_ref().map_or(0, |plan| plan.stack);
    let hands = || tables.iter().filter_map(|table| table.hand.as_ref());
    let play: u64 = hands().flat_map(|hand| &hand.dealt).map(|dealt| dealt.began_with).sum();
    let rest: u64 = players.iter().map(|player| player.stack).sum();
    writeln!(out, "* report\n* level {}", u8::from(tournament.plan.is_some()))?;
    writeln!(out, "* sold {}\n* removed 0\n* added 0", players.len() as u64 * stack)?;
    writeln!(out, "* rest {rest}\n* play {play}")?;
    for (number, table) in (1..).zip(tables) {
        for (seat, player) in table.seats.iter().enumerate() {
            let Some(player) = *player else { continue };
            let mut dealt = table.hand.iter().flat_map(|hand| &hand.dealt);
            if dealt.any(|dealt| dealt.player == player) {
                writeln!(out, "* seat {number} {seat} {} play", name(player))?;
            } else {
                writeln!(out, "* seat {number} {seat} {} {}", name(player), players[player].stack)?;
            }
        }
    }
    if let Some(plan) = tournament.plan.as_ref().filter(|_| !tournament.busts.is_empty()) {
        let prizes = prizes(plan, players.len());
        for tied in standings(tournament).chunk_by(|one, other| one.0 == other.0) {
            let (place, count) = (tied[0].0, tied.len() as u64);
            let together: u64 = prizes[place - 1..][..tied.len()].iter().sum();
            for (turn, &(place, player)) in (0..).zip(tied) {
                let prize = together / count + u64::from(turn < together % count);
                writeln!(out, "* out {place} {} {prize}", name(player))?;
            }
        }
    }
    writeln!(out, "* end")
}

// The loop

fn answer(tournament: &mut Tournament, line: &[u8], out: &mut Vec<u8>) {
    let answer = if line.first() == Some(&b'*') {
        refuse_if(line.len() > LONGEST_LINE, "1 Syntax")
    } else {
        event(line).ok_or("1 Syntax").and_then(|event| tournament.apply(event))
    };
    match answer {
        Ok(()) => out.extend_from_slice(b"ok\n"),
        Err(refusal) => {
            out.extend_from_slice(b"no ");
            out.extend_from_slice(refusal.as_bytes());
            out.push(b'\n');
        }
    }
}

/// The place of the first line feed, looked for in eight bytes at once.
fn line_feed(bytes: &[u8]) -> Option<usize> {
    const ONES: u64 = u64::MAX / 255;
    let mut eights = bytes.chunks_exact(8);
    let mut before = 0;
    for eight in &mut eights {
        let other = u64::from_le_bytes(eight.try_into().expect("eight bytes")) ^ ONES * u64::from(b'\n');
        let found = other.wrapping_sub(ONES) & !other & ONES << 7;
        if found != 0 {
            return Some(before + found.trailing_zeros() as usize / 8);
        }
        before += 8;
    }
    eights.remainder().iter().position(|&byte| byte == b'\n').map(|place| before + place)
}

/// The status and what is said on err where the run fails.
type Fault = (u8, &'static str);

fn replay(mut input: impl Read, mut output: impl Write) -> Result<(), Fault> {
    let mut tournament = Tournament::default();
    let mut block = vec![0; 64 << 10];
    let (mut kept, mut taken) = (0, 0);
    let mut out = Vec::new();
    let write_fault = |_| (4, "write fault");
    loop {
        output.write_all(&out).map_err(write_fault)?;
        out.clear();
        let read = match input.read(&mut block[kept..]) {
            Ok(read) => read,
            Err(fault) if fault.kind() == io::ErrorKind::Interrupted => continue,
            Err(_) => return Err((3, "read fault")),
        };
        taken += read;
        let end = kept + read;
        let mut begin = 0;
        while let Some(length) = line_feed(&block[begin..end]) {
            answer(&mut tournament, &block[begin..begin + length], &mut out);
            begin += length + 1;
        }
        if taken > LONGEST_INPUT {
            output.write_all(&out).map_err(write_fault)?;
            return Err((8, "input too long"));
        }
        // of a line that is too long it is enough to keep that it is
        block.copy_within(begin..end, 0);
        kept = (end - begin).min(LONGEST_LINE + 1);
        if read == 0 {
            break;
        }
    }
    if kept > 0 {
        answer(&mut tournament, &block[..kept], &mut out);
    }
    report(&tournament, &mut out).map_err(write_fault)?;
    output.write_all(&out).map_err(write_fault)
}

fn main() -> ExitCode {
    if !std::env::args().skip(1).eq(["replay"]) {
        eprintln!("usage: replay");
        return ExitCode::from(2);
    }
    match replay(io::stdin().lock(), io::stdout()) {
        Ok(()) => ExitCode::SUCCESS,
        Err((status, said)) => {
            eprintln!("{said}");
            ExitCode::from(status)
        }
    }
}
