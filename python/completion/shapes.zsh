#compdef shapes
# Completion of the command `shapes` for zsh. Made by python/completion/make of the command's words: a change here is lost.

_shapes() {
    local -a commands=(
        'measure:images to tables, drawings and reports'
        'volume:the same for volumes'
        'join:the tables, the page and the record of all shares of a folder'
        'check:whether all of a folder, or a report of an image, is right, and why not'
        'export:straight sides and corners as DXF, or a volume'\''s surface with its normals as PLY'
        '--help:all commands'
        '--version:the version'
    )
    if ((CURRENT == 2)); then
        _describe command commands
        return
    fi
    local command=$words[2]
    shift words
    ((CURRENT--))
    case $command in
        measure)
            _arguments \
                '(-h --help)-h[show this help message and exit]' \
                '(-h --help)--help[show this help message and exit]' \
                '(--intensities)--intensities[measure the intensities of other images, as those of labels or masks]:IMAGES:_files' \
                '(--network)--network[also measure each skeleton as a network]' \
                '(--prune)--prune[with --network, leave out branches shorter than L]:L: ' \
                '(--classes)--classes[with --network, the widths between the classes of widths.csv, in the same unit]:W,W,..: ' \
                '(--sides)--sides[also find straight sides, corners and circles]' \
                '(--long)--long[a straight side has at least so many steps]:STEPS: ' \
                '(--pixel-size --dpi)--pixel-size[how wide a pixel is]:L: :UNIT:(nm um mm cm m)' \
                '(--pixel-size --dpi)--dpi[the dots per inch of a scan]:N: ' \
                '(--rule)--rule[what the thinning keeps]:rule:(none curve few)' \
                '(--plain --gzip)--plain[keep the reports as text]' \
                '(--no-draw)--no-draw[make no drawings and no small pictures, which take most of the time]' \
                '(--no-report)--no-report[keep the tables alone, without reports and pictures]' \
                '(--thickness)--thickness[also measure the local thickness of each object, write it as a mask, and draw it with a colour bar where matplotlib is installed]' \
                '*--masks[also write a picture of this]:masks:(object skeleton distances squares thickness)' \
                '(--share)--share[measure share K of N alone, into FOLDER/shares/K]:K/N: ' \
                '(--base)--base[names of images are those below this folder]:BASE:_files -/' \
                '(--patience)--patience[how long another run that has the folder in hand may give no sign of life before it is taken over]:SECONDS: ' \
                '(-o)-o[where all is written]:FOLDER:_files -/' \
                '(--threshold --auto)--threshold[values below T are dark]:T: ' \
                '(--threshold --auto)--auto[choose a threshold for each image, by Otsu]' \
                '(--dark --light)--dark[the objects are dark]' \
                '(--dark --light)--light[the objects are light]' \
                '(--labels --labels-together)--labels[values are labels, 0 is background]' \
                '(--labels --labels-together)--labels-together[the same, all labels as one picture]' \
                '(--channel)--channel[which channel of an image]:C:(red green blue alpha)' \
                '(--background)--background[take the background off before the threshold]:N: ' \
                '(--smooth)--smooth[smooth before the threshold, by a Gaussian of N pixels]:N: ' \
                '(--fill-holes)--fill-holes[fill the holes of objects]' \
                '(--exclude-border)--exclude-border[leave out objects that touch the border of the image]' \
                '(--min-size)--min-size[leave out objects of fewer than N pixels]:N: ' \
                '(--fit)--fit[make images that are too large smaller, by whole numbers of pixels]' \
                '(--jobs)--jobs[how many images at once]:N: ' \
                '*:file:_files'
            ;;
        volume)
            _arguments \
                '(-h --help)-h[show this help message and exit]' \
                '(-h --help)--help[show this help message and exit]' \
                '(--sides)--sides[the sides of raw bytes]:X: :Y: :Z: ' \
                '(--type)--type[the type of raw bytes, as uint8, uint16, >u2 or float32]:TYPE:(uint8 int8 uint16 int16 uint32 int32 float32 float64)' \
                '(--no-metadata)--no-metadata[pass over the size of a voxel that a file tells]' \
                '(--cubes)--cubes[make voxels that are no cubes cubes, before the threshold]' \
                '(--region)--region[look only at what lies where this volume of the same sides is not 0]:MASK:_files' \
                '(--separation)--separation[also measure the background, as a volume turned over]' \
                '(--mesh)--mesh[also write the surface as a mesh of triangles]' \
                '(--network)--network[also measure each skeleton as a network]' \
                '(--prune)--prune[with --network, leave out branches shorter than L]:L: ' \
                '(--classes)--classes[with --network, the widths between the classes of widths.csv, in the same unit]:W,W,..: ' \
                '(--pixel-size --dpi --voxel-size)--pixel-size[how wide a pixel is]:L: :UNIT:(nm um mm cm m)' \
                '(--pixel-size --dpi --voxel-size)--dpi[the dots per inch of a scan]:N: ' \
                '(--rule)--rule[what the thinning keeps]:rule:(none curve few)' \
                '(--plain --gzip)--plain[keep the reports as text]' \
                '(--no-draw)--no-draw[make no drawings and no small pictures, which take most of the time]' \
                '(--no-report)--no-report[keep the tables alone, without reports and pictures]' \
                '(--thickness)--thickness[also measure the local thickness of each object, write it as a mask, and draw it with a colour bar where matplotlib is installed]' \
                '*--masks[also write a picture of this]:masks:(object skeleton distances squares thickness)' \
                '(--share)--share[measure share K of N alone, into FOLDER/shares/K]:K/N: ' \
                '(--base)--base[names of images are those below this folder]:BASE:_files -/' \
                '(--patience)--patience[how long another run that has the folder in hand may give no sign of life before it is taken over]:SECONDS: ' \
                '(-o)-o[where all is written]:FOLDER:_files -/' \
                '(--pixel-size --dpi --voxel-size)--voxel-size[how wide a voxel is along x, y and z, where the three may differ]:X: :Y: :Z: :UNIT:(nm um mm cm m)' \
                '(--threshold --auto)--threshold[values below T are dark]:T: ' \
                '(--threshold --auto)--auto[choose a threshold for each image, by Otsu]' \
                '(--dark --light)--dark[the objects are dark]' \
                '(--dark --light)--light[the objects are light]' \
                '(--labels --labels-together)--labels[values are labels, 0 is background]' \
                '(--labels --labels-together)--labels-together[the same, all labels as one picture]' \
                '(--channel)--channel[which channel of an image]:C:(red green blue alpha)' \
                '(--background)--background[take the background off before the threshold]:N: ' \
                '(--smooth)--smooth[smooth before the threshold, by a Gaussian of N pixels]:N: ' \
                '(--fill-holes)--fill-holes[fill the holes of objects]' \
                '(--exclude-border)--exclude-border[leave out objects that touch the border of the image]' \
                '(--min-size)--min-size[leave out objects of fewer than N pixels]:N: ' \
                '(--fit)--fit[make images that are too large smaller, by whole numbers of pixels]' \
                '(--jobs)--jobs[how many images at once]:N: ' \
                '*:file:_files'
            ;;
        join)
            _arguments \
                '(-h --help)-h[show this help message and exit]' \
                '(-h --help)--help[show this help message and exit]' \
                '(--base)--base[names of images are those below this folder]:BASE:_files -/' \
                '(--patience)--patience[as for shapes measure]:SECONDS: ' \
                '*:file:_files'
            ;;
        check)
            _arguments \
                '(-h --help)-h[show this help message and exit]' \
                '(-h --help)--help[show this help message and exit]' \
                '(--second)--second[check FOLDER, or reports that lie beside their pictures, by a second reading in Python, without the proved program]' \
                '(--share --tables)--share[check share K of N of FOLDER alone]:K/N: ' \
                '(--share --tables)--tables[check what shapes join wrote in FOLDER, without its shares]' \
                '(--originals)--originals[the folder of the images that FOLDER was made of]:IMAGES:_files' \
                '*--allow[a file in FOLDER, or a folder in it, that may be there though nothing made it]:NAME:_files' \
                '(--intensities)--intensities[measure the intensities of other images, as those of labels or masks]:IMAGES:_files' \
                '(--threshold --auto)--threshold[values below T are dark]:T: ' \
                '(--threshold --auto)--auto[choose a threshold for each image, by Otsu]' \
                '(--dark --light)--dark[the objects are dark]' \
                '(--dark --light)--light[the objects are light]' \
                '(--labels --labels-together)--labels[values are labels, 0 is background]' \
                '(--labels --labels-together)--labels-together[the same, all labels as one picture]' \
                '(--channel)--channel[which channel of an image]:C:(red green blue alpha)' \
                '(--background)--background[take the background off before the threshold]:N: ' \
                '(--smooth)--smooth[smooth before the threshold, by a Gaussian of N pixels]:N: ' \
                '(--fill-holes)--fill-holes[fill the holes of objects]' \
                '(--exclude-border)--exclude-border[leave out objects that touch the border of the image]' \
                '(--min-size)--min-size[leave out objects of fewer than N pixels]:N: ' \
                '(--fit)--fit[make images that are too large smaller, by whole numbers of pixels]' \
                '(--jobs)--jobs[how many images at once]:N: ' \
                '*:file:_files'
            ;;
        export)
            _arguments \
                '(-h --help)-h[show this help message and exit]' \
                '(-h --help)--help[show this help message and exit]' \
                '(--pixel-size --dpi)--pixel-size[how wide a pixel or voxel is, in the unit of the file]:L: ' \
                '(--pixel-size --dpi)--dpi[the dots per inch of a scan, in place of it]:N: ' \
                '(--long)--long[a straight side has at least so many steps]:STEPS: ' \
                '(-o)-o[the file to write]:FILE:_files' \
                '1:kind:(dxf ply)' \
                '*:file:_files'
            ;;
    esac
}

_shapes "$@"
