//! The story that the tool was rebuilt for: a corrected duty sheet, and an old tablet that comes out of a drawer.
//!
//! The desk files a sheet and the tablet takes it along. The desk corrects the sheet. Then the old tablet is synchronized
//! with the laptop and with the desk: the correction must survive. If the tablet was worked on too, somebody has to hear
//! of it: conflict.

use kettleflock::{
    ahead, pass, settle, Answer, Choice, Columns, Content, Devices, Kind, Passed, Plan, Refusal,
    Table,
};

/// The duty sheet's row: a folder of two sheets and another sheet beneath the root.
const SHEET: usize = 2;

/// The sheet's class of duty.
const CLASS: u32 = 3;

/// What the sheet holds with this figure.
fn filed(figure: u32) -> Content {
    Content {
        mark: figure,
        class: CLASS,
    }
}

/// The figure on a device's sheet, if there is one of its class.
fn figure(table: &Table) -> Option<u32> {
    match table.row(SHEET)?.kind() {
        Kind::Live { content, .. } if content.class == CLASS => Some(content.mark),
        _ => None,
    }
}

/// Says in a line what a pass did with the sheet, and what the target has now.
fn tell(who: &str, passed: &Passed, target: &Table) {
    let said = match passed.answer(SHEET) {
        Some(Answer::Keep) => "keep",
        Some(Answer::Copy) => "copy",
        Some(Answer::Remove) => "remove",
        Some(Answer::Conflict) => "CONFLICT",
        _ => "no answer",
    };
    let has = figure(target).map_or("nothing".to_string(), |mark| mark.to_string());
    println!(
        "{who}: {said}; the sheet there says {has} ({} rows looked at)",
        passed.looked_at()
    );
}

/// The names of some devices.
fn names(devices: Devices) -> String {
    let name = |device: u32| ["desk", "tablet", "laptop"][device as usize];
    devices.iter().map(name).collect::<Vec<_>>().join(" and ")
}

fn main() -> Result<(), Refusal> {
    let plan = Plan::folder([Plan::folder([Plan::sheet(), Plan::sheet()]), Plan::sheet()]);
    let mut desk = Table::new(Columns::Eight, 0, &plan)?;
    let mut tablet = Table::new(Columns::Eight, 1, &plan)?;
    let mut laptop = Table::new(Columns::Eight, 2, &plan)?;

    println!("The desk files a sheet, 700, and the tablet and the laptop take it along.");
    desk.create(SHEET, filed(700))?;
    tell("desk to tablet", &pass(&desk, &mut tablet, 0)?, &tablet);
    tell("desk to laptop", &pass(&desk, &mut laptop, 0)?, &laptop);

    println!(
        "The desk corrects it to 650, and the laptop hears of it. The tablet lies in a drawer."
    );
    desk.change(SHEET, filed(650))?;
    tell("desk to laptop", &pass(&desk, &mut laptop, 0)?, &laptop);

    println!("The old tablet is synchronized.");
    let stale = pass(&tablet, &mut laptop, 0)?;
    tell("tablet to laptop", &stale, &laptop);
    let desk_heard = pass(&tablet, &mut desk, 0)?;
    tell("tablet to desk", &desk_heard, &desk);
    let survives = figure(&laptop) == Some(650) && figure(&desk) == Some(650);
    let fate = if survives { "survives" } else { "IS LOST" };
    println!("The correction {fate}.");

    println!("Another day: the captain corrects the tablet's copy to 640 before it hears of 650.");
    tablet.change(SHEET, filed(640))?;
    let both = pass(&tablet, &mut desk, 0)?;
    tell("tablet to desk", &both, &desk);
    let said = both.conflicts().any(|row| row == SHEET);
    println!(
        "{}",
        if said {
            "Both figures are there, and somebody is asked."
        } else {
            "NOBODY HEARS OF IT."
        }
    );

    let who = ahead(&tablet, &desk, SHEET)?;
    println!(
        "The tablet is ahead by what the {} did, the desk by what the {} did.",
        names(who.source),
        names(who.target)
    );

    println!("The desk settles by a new figure, 645, and it goes out.");
    settle(&tablet, &mut desk, SHEET, Choice::New(filed(645)))?;
    tell("desk to tablet", &pass(&desk, &mut tablet, 0)?, &tablet);
    tell("desk to laptop", &pass(&desk, &mut laptop, 0)?, &laptop);

    let settled = [&desk, &tablet, &laptop]
        .iter()
        .all(|table| figure(table) == Some(645));
    if survives && said && settled {
        println!("No correction was lost, and the conflict was said.");
        Ok(())
    } else {
        std::process::exit(1)
    }
}
