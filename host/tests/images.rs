//! The images that the driver draws: valid ones are valid, and each damage breaks its one clause.

use stled325_host::driver::damage::broken_in;
use stled325_host::driver::images::{powered_up, random_valid};
use stled325_host::driver::random::Random;
use stled325_host::driver::Driver;
use stled325_host::model::fault::Fault;
use stled325_host::model::valid::{broken, clauses, is_valid};
use stled325_host::model::Model;

#[test]
fn power_up_is_valid() {
    let mut expected = [0; 64];
    expected[4] = 0x07;
    expected[5] = 0x01;
    expected[6] = 0x01;
    expected[20] = 0x01;
    expected[21] = 0x0A;
    expected[22] = 160;
    expected[37] = 5;
    assert_eq!(powered_up(), expected);
    assert!(is_valid(&expected));
}

#[test]
fn random_images_are_valid() {
    let mut random = Random::new(1);
    for _ in 0..20_000 {
        let image = random_valid(&mut random);
        assert!(is_valid(&image) && broken(&image).is_empty());
    }
}

#[test]
fn each_damage_breaks_one_clause() {
    let mut random = Random::new(2);
    for _ in 0..300 {
        let image = random_valid(&mut random);
        for clause in clauses() {
            let damaged = broken_in(&image, clause, &mut random);
            assert_eq!(broken(&damaged), [clause], "{damaged:02X?}");
            assert!(!is_valid(&damaged));
        }
    }
}

#[test]
fn a_damaged_image_is_refused_first_by_every_call() {
    let mut random = Random::new(3);
    let panel = Model::correct();
    for clause in clauses() {
        let image = broken_in(&random_valid(&mut random), clause, &mut random);
        let mut kept = image;
        assert_eq!(panel.tick(&mut kept), 1);
        assert_eq!(panel.command(&mut kept, &[], &mut []), 1);
        assert_eq!(panel.key_sample(&mut kept, 1), 1);
        assert_eq!(panel.remote_frame(&mut kept, 1), 1);
        assert_eq!(panel.ready(&mut kept, 1), 1);
        assert_eq!(panel.wake_up(&mut kept, 1), 1);
        assert_eq!(panel.supply_return(&mut kept, u32::MAX), 1);
        assert_eq!(panel.show(&kept, &mut []), 1);
        assert_eq!(panel.lines(&kept, &mut []), 1);
        assert_eq!(kept, image);
        assert_eq!(panel.power_up(&mut kept), 0);
        assert_eq!(kept, powered_up());
    }
}

#[test]
fn wrong_lengths_are_refused_first() {
    let panel = Model::correct();
    for length in [0, 1, 63, 65, 128] {
        let mut image = powered_up().to_vec();
        image.resize(length, 0);
        let before = image.clone();
        assert_eq!(panel.power_up(&mut image), 1);
        assert_eq!(panel.tick(&mut image), 1);
        assert_eq!(panel.show(&image, &mut [0; 4]), 1);
        assert_eq!(panel.lines(&image, &mut [0; 2]), 1);
        assert_eq!(image, before);
    }
}

#[test]
fn the_model_agrees_with_itself_and_with_no_faulty_one() {
    let mut driver = Driver::new(Model::correct(), Model::correct(), 5);
    assert!(driver.play(20_000).is_ok());
    let mut driver = Driver::new(Model::correct(), Model::with(Fault::BinaryIncrement), 5);
    assert!(driver.play(20_000).is_err());
}
