"""Volumes in the formats of scanners, each written by another program or library: they give the array, and the size of a voxel."""
import gzip
import shutil
import subprocess
import sys
import unittest
import unittest.mock
from decimal import Decimal
from pathlib import Path

import numpy as np

from .common import InFolder, installed, needs_pillow, random_mask

from shapefront import Fault, Missing
from shapefront.convert import volume_of
from shapefront.images import load
from shapefront.scans.asked import Asked
from shapefront.scans.kinds import parted, path_of
from shapefront.scans.reading import read
from shapefront.spacing import Spacing
from shapefront.thresholds import Settings

if installed("PIL"):
    from PIL import Image


UNU = shutil.which("unu") or shutil.which("teem-unu")


def needs(*packages):
    return unittest.skipUnless(installed(*packages), f"{', '.join(packages)} not installed")


def values(kind=np.uint16):
    """A volume of 4 by 5 by 6 (z, y, x) whose values all differ."""
    return (np.random.default_rng(1).permutation(120).reshape(4, 5, 6) * 3 + 7).astype(kind)


def um(*sizes):
    return Spacing.given("--voxel-size", [*map(str, sizes), "um"])


def dicom_slice(name, page, depth, **more):
    """Writes a slice, or several frames, by pydicom; what is told more takes the place of what stands here."""
    from pydicom.dataset import FileDataset, FileMetaDataset
    from pydicom.uid import ExplicitVRLittleEndian, generate_uid

    meta = FileMetaDataset()
    meta.TransferSyntaxUID, meta.MediaStorageSOPClassUID, meta.MediaStorageSOPInstanceUID = ExplicitVRLittleEndian, "1.2.840.10008.5.1.4.1.1.2", generate_uid()
    one = FileDataset(name, {}, file_meta=meta, preamble=b"\0" * 128)
    one.is_little_endian, one.is_implicit_VR = True, False
    told = dict(
        SOPClassUID=meta.MediaStorageSOPClassUID, SOPInstanceUID=meta.MediaStorageSOPInstanceUID, SeriesInstanceUID="1.2.3", Rows=page.shape[-2], Columns=page.shape[-1], BitsAllocated=16, BitsStored=16, HighBit=15,
        PixelRepresentation=0, SamplesPerPixel=1, PhotometricInterpretation="MONOCHROME2", PixelSpacing=[0.2, 0.1], SliceThickness=9, ImagePositionPatient=[1, 2, depth],
        ImageOrientationPatient=[1, 0, 0, 0, 1, 0], PixelData=page.tobytes(), InstanceNumber=1,
    )  # fmt: skip
    for key, value in {**told, **more}.items():
        setattr(one, key, value)
    one.save_as(name, write_like_original=False)


class OfScans(InFolder):
    def same(self, path, array, spacing=None, asked=Asked()):
        """A file gives this array, and voxels of this size; and what was read."""
        found = read(path_of(str(path)), asked)
        np.testing.assert_array_equal(found.values, array)
        self.assertEqual(found.values.dtype, array.dtype)
        self.assertEqual(found.spacing, spacing)
        return found

    def refused(self, path, reason, asked=Asked()):
        with self.assertRaisesRegex(Fault, reason):
            read(path_of(str(path)), asked)


class Arrays(OfScans):
    def test_npy_and_npz(self):
        np.save("v.npy", values()[None])
        self.same("v.npy", values())
        np.savez("one.npz", a=values(), table=np.zeros((2, 3)))
        np.savez_compressed("two.npz", a=values(), b=values()[::-1])
        self.same("one.npz", values())
        self.same("two.npz:b", values()[::-1])
        self.refused("two.npz", "it holds 2 volumes; name one: two.npz:a, two.npz:b")
        self.refused("two.npz:c", "it has no array c")
        Path("bad.npz").write_bytes(b"PK no")
        self.refused("bad.npz", "not arrays of numpy")

    def test_raw_bytes(self):
        for kind, named in (("u1", None), ("<u2", None), ("<f4", "float32"), (">u2", ">u2"), ("<i2", "int16")):
            (values() & 0xff).astype(kind).tofile("v.raw")
            array = (values() & 0xff).astype(np.dtype(kind).newbyteorder("="))
            self.same("v.raw", array, None, Asked((6, 5, 4), named))
        self.refused("v.raw", r"raw bytes, which do not tell their sides; give --sides X Y Z")
        self.refused("v.raw", "240 bytes, and these sides have 60 voxels; 4 bytes a voxel: name their type", Asked((6, 5, 2)))
        self.refused("v.raw", "are the sides right", Asked((6, 5, 7)))
        self.refused("v.raw", "are the sides and the type right", Asked((6, 5, 4), "float32"))

    def test_paths_inside_of_files(self):
        self.assertEqual(path_of("scan.h5:/a/b"), Path("scan.h5/a/b"))
        self.assertEqual(path_of("scan.h5:"), Path("scan.h5"))
        self.assertEqual(path_of("a:b/slices"), Path("a:b/slices"))
        self.assertEqual(parted(Path("in/scan.h5/a/b")), (Path("in/scan.h5"), "a/b"))
        self.assertEqual(parted(Path("in/v.nii")), (Path("in/v.nii"), ""))

    def test_a_volume_in_the_place_of_an_image(self):
        for name, reason in (
            ("x.nii", "a volume .NIfTI.; `shapes volume` takes it, with python3-nibabel"), ("x.h5", "python3-h5py"), ("x.dcm", "python3-pydicom"), ("x.nrrd", "`shapes volume` takes it$"),
        ):  # fmt: skip
            Path(name).write_bytes(b"no")
            with self.assertRaisesRegex(Fault, reason):
                load(Path(name))

    def test_what_is_missing_is_told(self):
        for name, package in (("x.nii.gz", "nibabel"), ("x.h5", "h5py"), ("x.dcm", "pydicom")):
            Path(name).write_bytes(b"no")
            with unittest.mock.patch.dict(sys.modules, {package: None}), self.assertRaisesRegex(Missing, f"apt install python3-{package}"):
                read(Path(name), Asked())


@needs("nibabel")
class Nifti(OfScans):
    def written(self, name, array, sizes, unit):
        import nibabel

        image = nibabel.Nifti1Image(array.transpose(), np.diag([*sizes, 1.0]))
        image.header.set_xyzt_units(unit)
        nibabel.save(image, name)

    def test_values_and_sizes(self):
        for name in ("v.nii", "v.nii.gz"):
            self.written(name, values(), (0.65, 0.65, 2), "micron")
            self.same(name, values(), um(0.65, 0.65, 2))
            self.written(name, values(np.float32), (0.1, 0.2, 0.3), "mm")
            self.same(name, values(np.float32), Spacing.of(("0.1", "0.2", "0.3"), "mm"))

    def test_no_unit_and_one_volume_of_a_series(self):
        self.written("v.nii", values()[None], (1, 1, 2), None)
        found = self.same("v.nii", values(), Spacing.of(("1", "1", "2"), None))
        self.assertEqual(found.notes[-2:], ("its voxels are 1 by 1 by 2, in a unit that the file does not tell", "nothing is told in a unit: give the sizes with one, as in `--voxel-size 1 1 2 mm`"))
        self.written("v.nii", np.stack([values()] * 2), (1, 1, 2), "mm")
        self.refused("v.nii", r"an array of 4 axes \(2 by 4 by 5 by 6\)")

    def test_scaled_values(self):
        import nibabel

        image = nibabel.Nifti1Image(values(np.int16).transpose(), np.eye(4))
        image.header.set_slope_inter(0.5, -3)
        nibabel.save(image, "v.nii")
        np.testing.assert_allclose(read(Path("v.nii"), Asked()).values, nibabel.load("v.nii").get_fdata().transpose())

    def test_broken(self):
        self.written("v.nii.gz", values(), (1, 1, 1), "mm")
        Path("cut.nii.gz").write_bytes(Path("v.nii.gz").read_bytes()[:-30])
        Path("text.nii").write_text("no image")
        self.refused("cut.nii.gz", "a NIfTI file that cannot be read")
        self.refused("text.nii", "a NIfTI file that cannot be read")


@needs("h5py")
class Hdf5(OfScans):
    def test_datasets(self):
        import h5py

        with h5py.File("scan.h5", "w") as file:
            file["exported/data"] = values()[None, ..., None]
            file["exported/data"].attrs["element_size_um"] = [2, 0.5, 0.25]
            file["note"] = np.arange(3)
        self.same("scan.h5:/exported/data", values(), um(0.25, 0.5, 2))
        found = self.same("scan.h5", values(), um(0.25, 0.5, 2))
        self.assertIn("its array /exported/data", found.notes)
        with h5py.File("scan.h5", "a") as file:
            file["mask"] = values() > 100
        self.same("scan.h5/mask", values() > 100)
        self.refused("scan.h5", "it holds 2 volumes; name one: scan.h5:/exported/data, scan.h5:/mask")
        self.refused("scan.h5:/none", "it has no array /none; name one: ")

    def test_broken(self):
        Path("text.h5").write_text("no file")
        self.refused("text.h5", "an HDF5 file that cannot be read")


@needs("tifffile")
class Tiff(OfScans):
    def written(self, name, **more):
        import tifffile

        tifffile.imwrite(name, values(), photometric="minisblack", **more)

    def test_imagej(self):
        self.written("v.tif", imagej=True, resolution=(2, 4), metadata={"spacing": 2.0, "unit": "um", "axes": "ZYX"})
        self.same("v.tif", values(), um(0.5, 0.25, 2))
        self.written("v.tif", imagej=True, resolution=(2, 4), metadata={"spacing": 2.0, "unit": "\\u00B5m", "axes": "ZYX"})
        self.same("v.tif", values(), um(0.5, 0.25, 2))
        self.written("v.tif", imagej=True, metadata={"axes": "ZYX"})
        self.same("v.tif", values())

    def test_ome(self):
        sizes = {"PhysicalSizeX": 0.5, "PhysicalSizeY": 500, "PhysicalSizeYUnit": "nm", "PhysicalSizeZ": 2, "PhysicalSizeXUnit": "\u00b5m"}
        self.written("v.ome.tif", metadata={"axes": "ZYX", **sizes})
        self.same("v.ome.tif", values(), um(0.5, 0.5, 2))
        self.written("v.ome.tif", metadata={"axes": "ZYX"})
        self.same("v.ome.tif", values())

    def test_words_and_metadata(self):
        self.written("v.tif", imagej=True, resolution=(2, 2), metadata={"spacing": 2.0, "unit": "um", "axes": "ZYX"})
        self.same("v.tif", values(), um(0.5, 0.5, 2), Asked(spacing=um(0.5, 0.5, 2)))
        self.same("v.tif", values(), Spacing.of((500, 500, 2000), "nm"), Asked(spacing=Spacing.of((500, 500, 2000), "nm")))
        found = self.same("v.tif", values(), None, Asked(spacing=um(0.5, 0.5, 0.5)))
        self.assertIn("its voxels are 0.5 by 0.5 by 2 um, as the file says, and 0.5 um by --voxel-size", found.notes[-1])
        self.same("v.tif", values(), um(0.5, 0.5, 0.5), Asked(spacing=um(0.5, 0.5, 0.5), is_alone=True))


@needs_pillow
class Slices(OfScans):
    def test_what_is_no_image_is_passed_over(self):
        for k, page in enumerate(values(np.uint8)):
            Image.fromarray(page).save(f"s{k}.png")
        Path("s_rec.log").write_text("[System]")
        found = self.same(self.folder, values(np.uint8))
        self.assertIn("files passed over, as their names are not those of images: 1", found.notes)


@needs("pydicom")
class Dicom(OfScans):
    """A series as pydicom writes it: names in another order than the places."""

    def series(self, folder, depths=(0, 0.5, 1, 1.5), **more):
        Path(folder).mkdir()
        for k, name in enumerate(("d", "a.dcm", "c", "b.dcm")):
            dicom_slice(f"{folder}/{name}", values()[k], depths[k], **more)

    def test_in_the_order_of_places(self):
        self.series("in")
        Path("in/DICOMDIR").write_text("")
        self.same("in", values(), Spacing.of(("0.1", "0.2", "0.5"), "mm"))

    def test_values_are_scaled(self):
        self.series("in", RescaleSlope=1, RescaleIntercept=-1024)
        self.same("in", values().astype(np.int32) - 1024, Spacing.of(("0.1", "0.2", "0.5"), "mm"))
        self.series("white", PhotometricInterpretation="MONOCHROME1")
        self.same("white", values().max() - values(), Spacing.of(("0.1", "0.2", "0.5"), "mm"))

    def test_refusals(self):
        self.series("missing", (0, 0.5, 1, 2))
        self.refused("missing", "its slices are not evenly spaced: 0.5 to 1 mm apart; is one missing")
        self.series("twice", (0, 0.5, 0.5, 1))
        self.refused("twice", "two at one place")
        self.series("both")
        dicom_slice("both/other", values()[0], 3, SeriesInstanceUID="1.2.4")
        self.refused("both", "it holds 2 series")
        self.refused("both/a.dcm", "one slice, not a volume; give the folder")

    def test_several_frames(self):
        dicom_slice("v.dcm", values(), 0, NumberOfFrames=4, SpacingBetweenSlices=0.5)
        self.same("v.dcm", values(), Spacing.of(("0.1", "0.2", "0.5"), "mm"))


class Headers(OfScans):
    @needs("vtk")
    def test_metaimage_of_vtk(self):
        from vtkmodules.util.numpy_support import numpy_to_vtk
        from vtkmodules.vtkCommonDataModel import vtkImageData
        from vtkmodules.vtkIOImage import vtkMetaImageWriter

        for kind in (np.uint8, np.int16, np.uint16, np.float32, np.float64):
            image = vtkImageData()
            image.SetDimensions(6, 5, 4)
            image.SetSpacing(0.1, 0.2, 0.5)
            image.GetPointData().SetScalars(numpy_to_vtk(values(kind).ravel(), deep=True))
            for packed, name in ((True, "v.mha"), (False, "v.mhd")):
                writer = vtkMetaImageWriter()
                writer.SetInputData(image)
                writer.SetFileName(name)
                writer.SetCompression(packed)
                writer.Write()
                self.same(name, values(kind), Spacing.of(("0.1", "0.2", "0.5"), None))

    @unittest.skipUnless(UNU, "unu (teem-apps) not installed")
    def test_nrrd_of_unu(self):
        for kind, told in ((np.uint8, "uchar"), (np.uint16, "ushort"), (np.float32, "float")):
            values(kind).tofile("v.raw")
            made = [UNU, "make", "-i", "v.raw", "-t", told, "-s", "6", "5", "4", "-e", "raw", "-en", "little", "-sp", "0.1", "0.2", "0.5"]
            for name, encoding in (("raw.nrrd", ["raw"]), ("packed.nrrd", ["gzip"]), ("bz.nrrd", ["bzip2"]), ("text.nrrd", ["ascii"]), ("beside.nhdr", ["raw"])):
                with subprocess.Popen([*made, "-o", "-"], stdout=subprocess.PIPE) as first:
                    subprocess.run([UNU, "save", "-f", "nrrd", "-e", *encoding, "-o", name], stdin=first.stdout, check=True)
                self.same(name, values(kind), Spacing.of(("0.1", "0.2", "0.5"), None))

    def test_nrrd_as_slicer_writes_it(self):
        head = "NRRD0004\n# by hand\ntype: unsigned short\ndimension: 3\nspace: left-posterior-superior\nsizes: 6 5 4\n"
        head += "space directions: (0.1,0,0) (0,-0.2,0) (0,0.3,0.4)\nkinds: domain domain domain\nendian: big\nencoding: gzip\nspace origin: (0,0,0)\n"
        data = gzip.compress(values(">u2").tobytes())
        Path("v.nrrd").write_bytes(head.encode() + b"\n" + data)
        self.same("v.nrrd", values(), Spacing.of(("0.1", "0.2", "0.5"), None))
        Path("v.nhdr").write_text(head + "data file: v.raw.gz\n")
        Path("v.raw.gz").write_bytes(data)
        self.same("v.nhdr", values(), Spacing.of(("0.1", "0.2", "0.5"), None))
        told = 'NRRD0003\ntype: uint16\ndimension: 3\nsizes: 6 5 4\nspacings: 0.1 0.2 0.5\nunits: "um" "um" "um"\nendian: little\nencoding: raw\n\n'
        Path("um.nrrd").write_bytes(told.encode() + values().tobytes())
        self.same("um.nrrd", values(), um(0.1, 0.2, 0.5))
        Path("cut.nrrd").write_bytes(head.encode() + b"\n" + data[:-20])
        self.refused("cut.nrrd", "a NRRD file that cannot be read")

    def test_metaimage_by_hand(self):
        head = "ObjectType = Image\nNDims = 3\nBinaryDataByteOrderMSB = True\nDimSize = 6 5 4\nElementSpacing = 1 1 2\nDistanceUnits = um\nElementType = MET_USHORT\nElementDataFile = LOCAL\n"
        Path("v.mha").write_bytes(head.encode() + values(">u2").tobytes())
        self.same("v.mha", values(), um(1, 1, 2))
        Path("cut.mha").write_bytes(head.encode() + values(">u2").tobytes()[:-9])
        self.refused("cut.mha", "231 bytes, and its header tells of 120 numbers of 2")
        Path("gone.mhd").write_text(head.replace("LOCAL", "gone.raw"))
        self.refused("gone.mhd", "a MetaImage file that cannot be read")


class Cubes(OfScans):
    def cubed(self, array, *sizes, **more):
        np.save("v.npy", array)
        return volume_of(Path("v.npy"), "v.npy", Settings(threshold="1", objects="light", scan=Asked(spacing=um(*sizes), cubes=True), **more))

    def test_whole_factors_and_labels(self):
        mask = random_mask(4, 3, 4, 5)
        found = self.cubed(mask.astype(np.uint8), 0.5, 1, 2)
        np.testing.assert_array_equal(found.mask, mask.repeat(4, 0).repeat(2, 1))
        self.assertEqual(found.spacing, um(0.5, 0.5, 0.5))
        self.assertIn("made cubes of 0.5 um: each voxel is 1 by 2 by 4 of them", found.notes)
        labels = self.cubed(np.arange(8).reshape(2, 2, 2), 1, 1, 1.5, labels="each")
        np.testing.assert_array_equal(labels.labels, np.arange(8).reshape(2, 2, 2)[[0, 1, 1]])

    def test_linear_between_middles(self):
        ramp = np.arange(5, dtype=np.float64)[:, None, None] + np.zeros((1, 3, 3))
        found = self.cubed(ramp, 1, 1, 2)
        np.testing.assert_allclose(found.grey[:, 0, 0], [0, 0.25, 0.75, 1.25, 1.75, 2.25, 2.75, 3.25, 3.75, 4])
        self.assertIn("made cubes of 1 um: by linear interpolation before the threshold", found.notes)

    def test_no_cubes_without_a_size(self):
        np.save("v.npy", values())
        with self.assertRaisesRegex(Fault, "v.npy: the size of its voxels is not told"):
            volume_of(Path("v.npy"), "v.npy", Settings(scan=Asked(cubes=True)))


class Blocks(OfScans):
    """--fit by one rule, whatever type a mask has."""

    def test_of_two_values(self):
        mask = random_mask(7, 9, 10, 11)
        blocks = np.zeros((5, 5, 6))
        for z, y, x in np.ndindex(blocks.shape):
            blocks[z, y, x] = mask[2 * z : 2 * z + 2, 2 * y : 2 * y + 2, 2 * x : 2 * x + 2].mean()
        for array in (mask, mask.astype(np.uint8), mask * np.uint8(255), mask * np.float32(1), mask * np.float64(0.5) - 3):
            np.save("v.npy", array)
            found = volume_of(Path("v.npy"), "v.npy", Settings(objects="light", fit=2))
            np.testing.assert_array_equal(found.mask, blocks >= 0.5)
            told = f"of the image {mask.mean():.4f} is object, of what it was made {found.mask.mean():.4f}: {found.mask.mean() - mask.mean():+.4f} by making it smaller"
            self.assertIn(told, found.notes)

    def test_of_grey_values(self):
        array = np.random.default_rng(1).integers(0, 200, (4, 6, 8)).astype(np.uint8)
        np.save("v.npy", array)
        found = volume_of(Path("v.npy"), "v.npy", Settings(threshold="100", objects="light", fit=2))
        means = array.reshape(2, 2, 3, 2, 4, 2).mean((1, 3, 5))
        np.testing.assert_array_equal(found.mask, np.rint(means) >= 100)
        self.assertTrue(any("by making it smaller" in note for note in found.notes))

    def test_a_region(self):
        region = random_mask(8, 4, 5, 6)
        np.save("v.npy", values())
        np.save("region.npy", region.astype(np.uint8) * 7)
        found = volume_of(Path("v.npy"), "v.npy", Settings(threshold="100", objects="light", scan=Asked(region=Path("region.npy"))))
        np.testing.assert_array_equal(found.mask, (values() >= 100) & region)
        np.testing.assert_array_equal(found.region, region)
        np.save("region.npy", region[1:])
        with self.assertRaisesRegex(Fault, "the region region.npy has x 6, y 5, z 3, and the volume x 6, y 5, z 4"):
            volume_of(Path("v.npy"), "v.npy", Settings(threshold="100", scan=Asked(region=Path("region.npy"))))


class Spacings(unittest.TestCase):
    def test_what_can_be_said(self):
        flat = um(0.5, 0.5, 2)
        self.assertEqual((flat.times("10", 3), flat.times("10", 1), flat.times("10", 2), flat.times("", 3)), ("5", "", "", ""))
        self.assertEqual((flat.along(2, "3.5"), flat.times("4", -3), flat.times("4", -1)), ("7", "8", ""))
        cube = um(0.5, 0.5, 0.5)
        self.assertEqual((cube.times("10", 1), cube.times("10", 2), cube.times("10", 1, 2)), ("5", "2.5", "10"))
        self.assertEqual(str(flat.within("nm")), "500 by 500 by 2000 nm")
        self.assertIsNone(flat.within("px"))
        self.assertTrue(flat.agrees(Spacing.of((500, 500, 2000), "nm")))
        self.assertFalse(flat.agrees(um(0.5, 0.5, 1)))
        self.assertTrue(Spacing.of((1, 1, 4), None).agrees(flat))

    def test_whole_numbers(self):
        for sizes, sides, length in (((0.5, 0.5, 2), (1, 1, 4), "0.5"), ((0.6, 0.4, 1), (3, 2, 5), "0.2"), ((1000, 1, 1), (1000, 1, 1), "1")):
            found = um(*sizes).in_whole
            self.assertEqual((found.sides, found.length, found.off), (sides, Decimal(length), 0))
            self.assertEqual(str(found), " by ".join(map(str, sides)))
        found = um("0.6510417", "0.6510417", "1.3").in_whole
        self.assertLess(found.off, 0.0001)
        self.assertIn("rounded by at most", str(found))
        self.assertLessEqual(max(found.sides), 1000)
        for side, size in zip(found.sides, (0.6510417, 0.6510417, 1.3)):
            self.assertAlmostEqual(side * float(found.length) / size, 1, 4)
        self.assertEqual((um(1, 1, 1).in_whole, um(1, 1, 3000).in_whole), (None, None))
        self.assertEqual((um(0.5, 0.5, 2).in_whole.times("10", 2), um(0.5, 0.5, 2).in_whole.times("10", 2, 2), um(0.5, 0.5, 2).in_whole.times("", 2)), ("2.5", "10", ""))

    def test_what_is_none(self):
        for words in (["0", "1", "1", "um"], ["a", "1", "1", "um"], ["1", "1", "1", "u m"]):
            with self.assertRaisesRegex(Fault, "is no size of a voxel"):
                Spacing.given("--voxel-size", words)
        self.assertEqual(Spacing.given("--voxel-size", ["1", "2", "3", "px"]), Spacing((Decimal(1), Decimal(2), Decimal(3)), "px"))


if __name__ == "__main__":
    unittest.main()
