import hdf.hdf5lib.H5;

import static hdf.hdf5lib.HDF5Constants.*;

/** Writes and reads a file by libhdf5-java: many natives, arrays, callbacks. */
public class Hdf5 {
    static class Visits implements hdf.hdf5lib.callbacks.H5L_iterate_t { }

    static class Sees implements hdf.hdf5lib.callbacks.H5O_iterate_t { }

    public static void main(String[] words) throws Exception {
        String name = words[0] + "/test.h5";
        long file = H5.H5Fcreate(name, H5F_ACC_TRUNC, H5P_DEFAULT, H5P_DEFAULT);
        long group = H5.H5Gcreate(file, "/group", H5P_DEFAULT, H5P_DEFAULT, H5P_DEFAULT);
        long space = H5.H5Screate_simple(2, new long[] {4, 6}, null);
        long set = H5.H5Dcreate(file, "/group/ints", H5T_STD_I32LE, space, H5P_DEFAULT,
                H5P_DEFAULT, H5P_DEFAULT);
        int[] data = new int[24];
        for (int at = 0; at < data.length; at++) {
            data[at] = at * at;
        }
        H5.H5Dwrite(set, H5T_NATIVE_INT, H5S_ALL, H5S_ALL, H5P_DEFAULT, data);
        int[] back = new int[24];
        H5.H5Dread(set, H5T_NATIVE_INT, H5S_ALL, H5S_ALL, H5P_DEFAULT, back);
        System.out.println(java.util.Arrays.equals(data, back));
        long doubles = H5.H5Dcreate(file, "/doubles", H5T_IEEE_F64LE, space, H5P_DEFAULT,
                H5P_DEFAULT, H5P_DEFAULT);
        double[] values = new double[24];
        values[5] = 2.5;
        H5.H5Dwrite(doubles, H5T_NATIVE_DOUBLE, H5S_ALL, H5S_ALL, H5P_DEFAULT, values);
        double[] again = new double[24];
        H5.H5Dread(doubles, H5T_NATIVE_DOUBLE, H5S_ALL, H5S_ALL, H5P_DEFAULT, again);
        System.out.println(again[5]);
        long[] dimensions = new long[2], most = new long[2];
        H5.H5Sget_simple_extent_dims(space, dimensions, most);
        System.out.println(dimensions[0] + " " + dimensions[1]);
        System.out.println(H5.H5Iget_name(set) + " " + H5.H5Gget_info(file).nlinks);
        System.out.println(H5.H5Fget_name(file).endsWith("test.h5"));
        try {
            H5.H5Dopen(file, "/nowhere", H5P_DEFAULT);
        } catch (Exception isMissing) {
            System.out.println(isMissing.getClass().getSimpleName());
        }
        hdf.hdf5lib.callbacks.H5L_iterate_cb visits = (inGroup, link, info, with) -> {
            System.out.println("link " + link);
            return 0;
        };
        H5.H5Literate(file, H5_INDEX_NAME, H5_ITER_INC, 0L, visits, new Visits());
        hdf.hdf5lib.callbacks.H5O_iterate_cb sees = (object, path, info, with) -> {
            System.out.println("object " + path);
            return 0;
        };
        H5.H5Ovisit(file, H5_INDEX_NAME, H5_ITER_INC, sees, new Sees());
        long text = H5.H5Tcopy(H5T_C_S1);
        H5.H5Tset_size(text, H5T_VARIABLE);
        long line = H5.H5Screate_simple(1, new long[] {3}, null);
        long strings = H5.H5Dcreate(file, "/strings", text, line, H5P_DEFAULT, H5P_DEFAULT,
                H5P_DEFAULT);
        H5.H5Dwrite_VLStrings(strings, text, H5S_ALL, H5S_ALL, H5P_DEFAULT,
                new String[] {"one", "two", "three"});
        String[] read = new String[3];
        H5.H5Dread_VLStrings(strings, text, H5S_ALL, H5S_ALL, H5P_DEFAULT, read);
        System.out.println(String.join(" ", read));
        long attribute = H5.H5Acreate(set, "unit", H5T_NATIVE_INT, line, H5P_DEFAULT,
                H5P_DEFAULT);
        H5.H5Awrite(attribute, H5T_NATIVE_INT, new int[] {1, 2, 3});
        System.out.println(H5.H5Aget_name(attribute) + " " + H5.H5Tget_class_name(H5.H5Tget_class(text)));
        H5.H5Aclose(attribute);
        H5.H5Dclose(strings);
        H5.H5Tclose(text);
        H5.H5Sclose(line);
        for (int turn = 0; turn < 5; turn++) {
            try {
                H5.H5Gopen(file, "/none" + turn, H5P_DEFAULT);
            } catch (Exception isMissing) {
                System.out.println(isMissing.getMessage());
            }
        }
        H5.H5Dclose(doubles);
        H5.H5Dclose(set);
        H5.H5Sclose(space);
        H5.H5Gclose(group);
        H5.H5Fclose(file);
    }
}
